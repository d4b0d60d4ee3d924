;;; orgstore-recover-tests.el --- Changes that were cut short  -*- lexical-binding: t; -*-

;; SPDX-License-Identifier: MIT OR Apache-2.0

;; This file is not part of GNU Emacs.

;;; Commentary:

;; Records, hostile journals and folders, and `orgstore-recover', by the store alone.
;; A journal is written here as a crash leaves it, or the program is killed.

;;; Code:

(require 'orgstore-test-support)
(require 'rmc)
(unless ost-plain
  (require 'orgstore-recover)
  (require 'orgstore-setup))
(setq ost-file (or load-file-name buffer-file-name))

(defconst ost-ab '(("a.org" . "* One\ntext\n* Two\n") ("b.org" . "* There\n")))

;;;; Journals

(defun ost-hex (text)
  "Return the bytes that TEXT has as hexadecimal numbers."
  (apply #'unibyte-string (mapcar (lambda (it) (string-to-number it 16))
                                  (split-string text))))

(defun ost-number (number size)
  "Return NUMBER as SIZE bytes, the greatest first."
  (apply #'unibyte-string
         (nreverse (mapcar (lambda (_) (prog1 (logand number 255)
                                         (setq number (ash number -8))))
                           (make-list size nil)))))

(defun ost-entry (version entry)
  "Return the bytes of ENTRY: (NAME FINAL OLD BEFORE AFTER (FROM . BYTES)..)."
  (pcase-let ((`(,name ,final ,old ,before ,after . ,patches) entry))
    (concat (ost-number (length name) 2) name
            (if (= version 1) (ost-number (caar patches) 8) "")
            (ost-number final 8)
            (if (= version 3)
                (concat (ost-number old 8)
                        (ost-number (length before) 1) before
                        (ost-number (length after) 1) after)
              "")
            (if (= version 1) "" (ost-number (length patches) 4))
            (mapconcat (pcase-lambda (`(,from . ,bytes))
                         (concat (if (= version 1) "" (ost-number from 8))
                                 (ost-number (length bytes) 8) bytes))
                       patches ""))))

(defun ost-record (version &rest entries)
  "Return an open journal of VERSION, whose record has ENTRIES."
  (let ((record (concat (ost-number (length entries) 4)
                        (mapconcat (lambda (it) (ost-entry version it)) entries ""))))
    (concat "\1ORGJ" (ost-number version 1) "\0\0"
            (ost-number (length record) 8) record)))

(defun ost-journal (bytes)
  "Have BYTES be the journal of the served folder, and return its file name."
  (ost-write "orgstore.journal" bytes)
  (ost-path "orgstore.journal"))

(defun ost-read-record (bytes)
  "Return what is read of the journal BYTES: its damage, then what it writes."
  (ost-journal bytes)
  (let ((change (orgstore--unfinished ost-dir)))
    (cons (orgstore--change-damage change)
          (mapcar (lambda (it)
                    (cons (orgstore--write-name it)
                          (cons (orgstore--write-final it)
                                (mapcar (lambda (patch)
                                          (cons (car patch)
                                                (orgstore--patch-bytes change patch)))
                                        (orgstore--write-patches it)))))
                  (orgstore--change-writes change)))))

;; Of versions 1 and 2 these are the journals that docs/FORMATS.md prints.
(ost-alone record-versions nil
  (let ((read '(nil ("inbox.org" 16 (0 . "* TODO Call Ann\n")))))
    (should (equal read (ost-read-record (ost-hex "
01 4f 52 47 4a 02 00 00 00 00 00 00 00 00 00 3b 00 00 00 01 00 09 69 6e 62 6f 78 2e 6f 72 67
00 00 00 00 00 00 00 10 00 00 00 01 00 00 00 00 00 00 00 00 00 00 00 00 00 00 00 10
2a 20 54 4f 44 4f 20 43 61 6c 6c 20 41 6e 6e 0a"))))
    (should (equal read (ost-read-record (ost-hex "
01 4f 52 47 4a 01 00 00 00 00 00 00 00 00 00 37 00 00 00 01 00 09 69 6e 62 6f 78 2e 6f 72 67
00 00 00 00 00 00 00 00 00 00 00 00 00 00 00 10 00 00 00 00 00 00 00 10
2a 20 54 4f 44 4f 20 43 61 6c 6c 20 41 6e 6e 0a"))))
    ;; The old length is 4, before the patch are two bytes, after it is none.
    (should (equal '(nil ("a.org" 8 (2 . "CD") (5 . "E")))
                   (ost-read-record (ost-hex "
01 4f 52 47 4a 03 00 00 00 00 00 00 00 00 00 46 00 00 00 01 00 05 61 2e 6f 72 67
00 00 00 00 00 00 00 08 00 00 00 00 00 00 00 04 02 41 42 00 00 00 00 02
00 00 00 00 00 00 00 02 00 00 00 00 00 00 00 02 43 44
00 00 00 00 00 00 00 05 00 00 00 00 00 00 00 01 45 ff ff ff"))))))

(ost-alone record-damaged nil
  (let ((whole (ost-record 3 '("a.org" 9 9 "* A" "\n" (3 . "xy") (6 . "z"))
                           '("b.org_archive" 3 0 "" "" (0 . "* B")))))
    (should-not (car (ost-read-record whole)))
    ;; It is cut, with and without a length that says so.
    (dotimes (i (- (length whole) 16))
      (let ((cut (substring whole 0 (+ 16 i))))
        (should (car (ost-read-record cut)))
        (should (car (ost-read-record (concat (substring cut 0 8) (ost-number i 8)
                                              (substring cut 16)))))))
    (pcase-dolist (`(,damage . ,bytes)
                   `(("begin as a journal" . ,(concat "\1ORGK" (substring whole 5)))
                     ("out of range" . ,(concat "\1ORGJ\4" (substring whole 6)))
                     ("left over" . ,(concat (substring whole 0 8)
                                             (ost-number (- (length whole) 15) 8)
                                             (substring whole 16) "x"))
                     ("shorter than it says" . ,(concat (substring whole 0 8) (ost-number -1 8)
                                                        (substring whole 16)))
                     ("is no file name" . ,(ost-record 2 '("../a.org" 1 nil nil nil (0 . "x"))))
                     ("is no file name" . ,(ost-record 2 '("\377.org" 1 nil nil nil (0 . "x"))))
                     ("twice" . ,(ost-record 2 '("a.org" 1 nil nil nil (0 . "x"))
                                             '("a.org" 1 nil nil nil (0 . "x"))))
                     ("after its file" . ,(ost-record 2 '("a.org" 1 nil nil nil (1 . "x"))))
                     ("out of range" . ,(ost-record 2 '("a.org" 9 nil nil nil (3 . "xy") (4 . "z"))))
                     ("out of range" . ,(ost-record 1 '("a.org" 16777217 nil nil nil (3 . "xy"))))
                     ("out of range" . ,(ost-record 3 `("a.org" 9 9 ,(make-string 33 ?x) "" (3 . "x"))))))
      (should (string-search damage (car (ost-read-record bytes)))))
    ;; No byte of it can do more than damage it.
    (random "seed")
    (dotimes (_ 300)
      (let ((other (copy-sequence whole)))
        (dotimes (_ (1+ (random 3)))
          (aset other (+ 5 (random (- (length whole) 5))) (random 256)))
        (ost-read-record other)))))

;;;; What Emacs says

(defmacro ost-told (&rest body)
  "Do BODY, and return all messages and warnings of it as one text."
  (declare (indent 0) (debug t))
  `(let* ((said nil)
          (hear (lambda (text &rest args)
                  (when text (push (apply #'format text args) said)))))
     (advice-add 'message :before hear)
     (unwind-protect
         (cl-letf (((symbol-function 'display-warning)
                    (lambda (_ text &rest _) (push text said))))
           ,@body)
       (advice-remove 'message hear))
     (string-join said "\n")))

(defmacro ost-answer (key &rest body)
  "Do BODY, in which `orgstore-recover' is answered by KEY; return what it showed.
KEY may be a function that is called for its answer."
  (declare (indent 1) (debug t))
  `(let ((key ,key))
     (cl-letf (((symbol-function 'read-multiple-choice)
                (lambda (_ choices &rest _)
                  (assq (if (functionp key) (funcall key) key) choices))))
       (save-window-excursion ,@body))
     (with-current-buffer "*orgstore recover*" (buffer-string))))

(defun ost-visit (name)
  "Visit the served file NAME, and return what Emacs says."
  (ost-told (ost-open name)))

(defun ost-save-error ()
  "Save this buffer, and return the error's words."
  (set-buffer-modified-p t)
  (prog1 (error-message-string (should-error (save-buffer)))
    (should (buffer-modified-p))))

(defun ost-files (regexp)
  "Return the bytes of the files of the served folder whose names match REGEXP."
  (mapcar #'ost-bytes (directory-files ost-dir t regexp)))

;;;; Journals that no store made

(defun ost-try-journal (words)
  "Check that the journal is refused by WORDS wherever it may be read."
  (should (string-search words (ost-visit "a.org")))
  (should (string-search words (ost-save-error)))
  (should (string-search words (error-message-string (should-error (orgstore-recover)))))
  (save-window-excursion (orgstore-status))
  (with-current-buffer "*orgstore status*"
    (should (string-search words (buffer-string))))
  (should (equal (cdr (assoc "a.org" ost-ab)) (ost-disk "a.org")))
  ;; Once it is away all goes on.
  (delete-file (ost-path "orgstore.journal"))
  (ost-cmd 1 (insert "x") (save-buffer)))

(ost-alone journal-is-a-pipe ost-ab
  (call-process "mkfifo" nil nil nil (ost-path "orgstore.journal"))
  (ost-try-journal "orgstore.journal is a pipe, a socket or a device"))

(ost-alone journal-is-a-link-to-a-pipe ost-ab
  (let ((pipe (expand-file-name "a-pipe-with-a-long-name" ost-beside)))
    (call-process "mkfifo" nil nil nil pipe)
    (make-symbolic-link pipe (ost-path "orgstore.journal"))
    (ost-try-journal (format "orgstore.journal is a link, to %s" pipe))
    (delete-file pipe)))

(ost-alone journal-is-a-link-to-a-device ost-ab
  (make-symbolic-link "/dev/../dev/../dev/zero" (ost-path "orgstore.journal"))
  (ost-try-journal "orgstore.journal is a link"))

(ost-alone journal-is-a-device ost-ab
  (skip-unless (equal 0 (call-process "mknod" nil nil nil (ost-path "orgstore.journal") "c" "1" "5")))
  (ost-try-journal "orgstore.journal is a pipe, a socket or a device"))

(ost-alone journal-is-a-folder ost-ab
  (make-directory (ost-path "orgstore.journal"))
  (should (string-search "is a folder" (ost-visit "a.org")))
  (should (string-search "is a folder" (ost-save-error)))
  (set-buffer-modified-p nil))

(ost-alone journal-is-too-large ost-ab
  (skip-unless (equal 0 (call-process "truncate" nil nil nil "-s" "40G" (ost-path "orgstore.journal"))))
  (ost-try-journal "larger than a journal can be"))

(ost-alone journal-is-a-link ost-ab
  (let ((kept (expand-file-name "kept" ost-beside))
        (bytes (ost-record 2 '("a.org" 1 nil nil nil (0 . "x")))))
    (write-region bytes nil kept nil 'quiet)
    (set-file-modes kept #o644)
    (make-symbolic-link kept (ost-path "orgstore.journal"))
    (ost-try-journal "orgstore.journal is a link, to ")
    (should (equal bytes (ost-bytes kept)))
    (should (= #o644 (file-modes kept)))))

;; The program's own words for it, where the journal becomes a link after Emacs looked.
(ost-alone linked-in-words ost-ab
  (should (string-search "orgstore.journal is no plain file"
                         (orgstore--reason '(3 . "orgstore: open: Linked orgstore.journal\n") ost-dir))))

;;;; Folders of others

(defconst ost-evil '("z.org" 5 0 "" "" (0 . "EVIL\n"))
  "An entry that writes what z.org leads to.")

(defun ost-stranger (dir)
  "Have DIR hold what a stranger may send: an open journal over a link.
Return the file that it leads to, which isn't in DIR."
  (let ((victim (expand-file-name "bashrc" ost-beside))
        (coding-system-for-write 'no-conversion))
    (write-region "mine\n" nil victim nil 'quiet)
    (make-directory dir t)
    (write-region "* Soup\n" nil (expand-file-name "soup.org" dir) nil 'quiet)
    (make-symbolic-link victim (expand-file-name "z.org" dir))
    (write-region (ost-record 2 ost-evil) nil (expand-file-name "orgstore.journal" dir)
                  nil 'quiet)
    victim))

(ost-alone folder-of-a-stranger ost-ab
  (let ((victim (ost-stranger (ost-path "recipes/"))))
    (should (string-search (format "z.org is a link to %s" (abbreviate-file-name victim))
                           (ost-visit "recipes/soup.org")))
    (should (string-search "which is no file of this store" (ost-save-error)))
    (set-buffer-modified-p nil)
    (orgstore-global-mode -1) (orgstore-global-mode 1)
    (let ((shown (ost-answer ?n (orgstore-recover))))
      (should (string-search (format "A LINK TO %s, NO FILE OF THIS STORE" (abbreviate-file-name victim))
                             shown))
      (should (string-search "| EVIL" shown)))
    (should (equal "mine\n" (ost-bytes victim)))
    (ost-answer ?k (orgstore-recover))
    (should (equal "mine\n" (ost-bytes victim)))
    (should (string-search (format "\n* z.org\nIt is a link to %s.\n" (abbreviate-file-name victim))
                           (ost-bytes (car (file-expand-wildcards (ost-path "recipes/unfinished-*.org"))))))
    (ost-open "recipes/soup.org")
    (ost-cmd 1 (insert "x") (save-buffer))
    (should (equal "mine\n" (ost-bytes victim)))))

;; What the user wants all the same is done, and what was there is kept.
(ost-alone folder-of-a-stranger-adopted nil
  (let ((victim (ost-stranger ost-dir)))
    (ost-visit "soup.org")
    (ost-answer ?f (orgstore-recover))
    (should (equal "EVIL\n" (ost-bytes victim)))
    (should (equal '("mine\n") (ost-files "\\`z\\.org\\.before-")))))

;; Names and targets are a stranger's too, and a link may lead to itself.
(ost-alone folder-of-a-joker nil
  (let ((name "x\342\200\256y.org"))
    (ost-stranger ost-dir)
    (make-symbolic-link "z.org" (ost-path "z.org") t)
    (make-symbolic-link "../\e]0;EVIL\a" (ost-path (decode-coding-string name 'utf-8)))
    (ost-journal (ost-record 2 ost-evil `(,name 5 0 "" "" (0 . "x"))))
    (should (string-search "isn't finished" (ost-visit "soup.org")))
    (let ((shown (ost-answer ?n (orgstore-recover))))
      (should (string-search "change of" shown))
      (should (string-search "x?y.org: it isn't there" shown))
      (should (string-search "/?]0;EVIL?, NO FILE OF THIS STORE" shown)))
    (delete-file (ost-path "z.org"))))

;; A link may lead elsewhere when the user answers.
(ost-alone link-turned-while-asked nil
  (let ((victim (ost-stranger ost-dir)) (other (expand-file-name "other" ost-beside)))
    (write-region "other\n" nil other nil 'quiet)
    (ost-visit "soup.org")
    (should (string-search
             "changed meanwhile"
             (error-message-string
              (should-error (ost-answer (lambda ()
                                          (make-symbolic-link other (ost-path "z.org") t)
                                          ?f)
                              (orgstore-recover))))))
    (should (equal "mine\n" (ost-bytes victim)))
    (should (equal "other\n" (ost-bytes other)))
    (should-not (ost-files "before"))))

(ost-alone folder-of-another-owner ost-ab
  (skip-unless (= 0 (user-uid)))
  (let ((victim (ost-stranger (ost-path "recipes/deep/")))
        (orgstore--told-foreign nil))
    (write-region "* Pie\n" nil (ost-path "recipes/pie.org") nil 'quiet)
    (set-file-modes (ost-path "recipes/") #o755)
    (call-process "chown" nil nil nil "65534" (ost-path "recipes/"))
    ;; What is below it is in its owner's hand too.
    (let ((said (ost-visit "recipes/deep/soup.org")))
      (should (string-search (abbreviate-file-name (ost-path "recipes/")) said))
      (should (string-search "isn't served, since another user owns it" said)))
    (should-not (orgstore--place))
    (should (equal "" (ost-visit "recipes/pie.org")))
    ;; Emacs saves it as a file elsewhere, but not around the open gate.
    (ost-cmd 0 (insert "x") (save-buffer))
    (should (equal "x* Pie\n" (ost-disk "recipes/pie.org")))
    (should-not (file-exists-p (ost-path "recipes/orgstore.journal")))
    (ost-open "recipes/deep/soup.org")
    (should (string-search "was cut short" (ost-save-error)))
    (should (equal "* Soup\n" (ost-disk "recipes/deep/soup.org")))
    (should (string-search "of another owner" (error-message-string (should-error (orgstore-recover)))))
    (set-buffer-modified-p nil)
    (should (equal "mine\n" (ost-bytes victim)))
    (should (= 0 (ost-runs)))
    ;; To name it is to trust it.
    (ost-close)
    (setq orgstore-directory (list ost-dir (ost-path "recipes/")))
    (ost-open "recipes/pie.org")
    (ost-cmd 1 (insert "y") (save-buffer))
    (should (equal "yx* Pie\n" (ost-disk "recipes/pie.org")))))

(ost-alone link-to-another-store '(("a.org" . "* A\n") ("sub/c.org" . "* C\n") ("sub/orgstore.journal" . ""))
  (should (equal "" (ost-visit "a.org")))
  (make-symbolic-link "sub/c.org" (ost-path "now.org"))
  (should (string-search (format "now.org leads to %s" (abbreviate-file-name (ost-path "sub/c.org")))
                         (ost-visit "now.org")))
  (ost-cmd 1 (insert "x") (save-buffer))
  (should (equal "x* C\n" (ost-disk "sub/c.org")))
  (should-not (equal "" (ost-disk "sub/orgstore.journal")))
  (should-not (file-exists-p (ost-path "orgstore.journal"))))

;;;; Another program wrote a file after the crash

(defvar ost-torn nil "What `ost-tear' left of steps: (NAME (FILE . BYTES)..).")

(defun ost-date (name)
  "Have the program see NAME as changed two minutes later; nil, no file."
  (setenv "LD_PRELOAD" (and name (getenv "ORGSTORE_AGES")))
  (setenv "LATER_FILE" name)
  (setenv "LATER" (and name "120")))

(defun ost-tear (name step)
  "Leave STEP, of NAME, cut short with an open gate, and a file half done.
The first time the program is killed in it at each call until it leaves that."
  (ost-date nil)
  (let ((at 0))
    (while (not (assq name ost-torn))
      (when (> (cl-incf at) 200) (error "Never half written"))
      (ost-close)
      (delete-file (ost-path "orgstore.journal"))
      (delete-file (ost-path "a.org_archive"))
      (pcase-dolist (`(,name . ,text) ost-ab) (ost-write name text))
      (let ((before (ost-tree ost-dir)))
        (ost-open "a.org" "One")
        (ost-plan "kill" at)
        (cl-letf (((symbol-function 'orgstore--finish) #'ignore))
          (ignore-errors (funcall step)))
        (when (and (orgstore--gate-open-p ost-dir)
                   (not (equal before (ost-tree ost-dir))))
          (push (cons name (cons (cons "orgstore.journal" (ost-disk "orgstore.journal"))
                                 (ost-tree ost-dir)))
                ost-torn))
        (when (file-exists-p (ost-planned)) (delete-file (ost-planned)))))
    (ost-close)
    (pcase-dolist (`(,file . ,bytes) (cdr (assq name ost-torn)))
      (ost-write file bytes))
    (should (orgstore--gate-open-p ost-dir))))

(defun ost-tear-refile ()
  "Leave a refile from a.org to b.org that was cut short."
  (ost-tear 'refile (lambda () (ost-refile "One" "b.org" "There"))))

(defun ost-refiled ()
  "Leave a refile from a.org to b.org that was cut short, and another a.org since."
  (ost-tear-refile)
  (ost-write "a.org" "* One\ntext\n* Two\n* Three from the phone\n")
  (ost-date "a.org"))

(ost-alone changed-is-refused ost-ab
  (ost-refiled)
  (let ((before (ost-tree ost-dir)))
    (should (string-search "another program has changed a.org since" (ost-visit "b.org")))
    (should (string-search "M-x orgstore-recover" (ost-save-error)))
    (set-buffer-modified-p nil)
    (let* ((runs (ost-runs)) (shown (ost-answer ?n (orgstore-recover))))
      (should (string-search "change of " shown))
      (should (string-search (format "a.org: it has %d bytes" (length (ost-disk "a.org"))) shown))
      (should (string-search "| ** One" shown))
      (should (= runs (ost-runs))))
    (should (equal before (ost-tree ost-dir)))
    (should (orgstore--gate-open-p ost-dir))))

(ost-alone changed-is-adopted ost-ab
  (ost-refiled)
  (let ((b (ost-disk "b.org")) said)
    (ost-visit "b.org")
    (setq said (ost-told (ost-answer ?f (orgstore-recover))))
    (should (string-match-p "Finished: .*: a.org, b.org .* a.org.before-" said))
    (should-not (orgstore--gate-open-p ost-dir))
    (should (equal '("* One\ntext\n* Two\n* Three from the phone\n") (ost-files "\\`a\\.org\\.before-")))
    (should (equal (list b) (ost-files "\\`b\\.org\\.before-")))
    (should (equal "* There\n** One\ntext\n" (ost-disk "b.org")))
    (should-not (string-search "One" (ost-disk "a.org")))))

(ost-alone changed-is-forgotten ost-ab
  (ost-refiled)
  (let ((a (ost-disk "a.org")) (b (ost-disk "b.org")) (journal (ost-disk "orgstore.journal")))
    (ost-visit "b.org")
    (should (string-search "is forgotten" (ost-told (ost-answer ?k (orgstore-recover)))))
    (should-not (orgstore--gate-open-p ost-dir))
    (should (equal (concat "\0" (substring journal 1)) (ost-disk "orgstore.journal")))
    (should (equal (list journal) (ost-files "\\`orgstore\\.journal\\.forgotten-")))
    (should (equal a (ost-disk "a.org")))
    (should (equal b (ost-disk "b.org")))
    (let ((kept (car (ost-files "\\`unfinished-.*\\.org\\'"))))
      (should (string-search "\n* b.org\n" kept))
      (should (string-search "\n: ** One\n: text\n" kept)))
    (ost-open "b.org")
    (ost-cmd 1 (insert "x") (save-buffer))))

;; What is in the record reads back from the lines, and it is said who has it.
(ost-alone kept-bytes '(("a.org" . "0123456789 a whole line\n") ("b.org" . "* There\n"))
  (ost-journal (ost-record 2 '("a.org" 30 nil nil nil (0 . "01234") (11 . "new"))
                           '("b.org" 30 nil nil nil (0 . "23456789 a whole "))
                           '("c.org" 20 nil nil nil (0 . "\377\n\n* not \303\274\nend"))
                           '("d.org" 0 nil nil nil (0 . ""))))
  (let ((file (expand-file-name "kept" ost-beside)))
    (orgstore--write-record (orgstore--unfinished ost-dir) file "kept")
    (let ((kept (ost-bytes file)))
      (dolist (it '("\n* a.org\nIt has 24 bytes, and was to have 30.\n"
                    "\n** From byte 0 on, 5 bytes; a.org has them there\n: 01234\nThe last line has no newline.\n"
                    "\n** From byte 11 on, 3 bytes; a.org hasn't got them there\n: new\n"
                    "\n** From byte 0 on, 17 bytes; a.org has them, from byte 2 on\n: 23456789 a whole \n"
                    "\n* c.org\nIt has no bytes, and was to have 20.\n"
                    "\n** From byte 0 on, 15 bytes; c.org hasn't got them there\n: \377\n: \n: * not \303\274\n: end\n"
                    "\n** From byte 0 on, 0 bytes; no bytes: the file was to be cut\n"))
        (should (string-search it kept))))))

(ost-alone damaged-record ost-ab
  (let ((journal (substring (ost-record 2 '("a.org" 3 nil nil nil (0 . "* N"))
                                        '("b.org" 9 nil nil nil (0 . "* Another")))
                            0 -4)))
    (ost-journal (concat (substring journal 0 8) (ost-number (- (length journal) 16) 8)
                         (substring journal 16)))
    (should (string-search "the journal of the folder is damaged" (ost-visit "a.org")))
    ;; It can't be finished.
    (should (string-search "The record is damaged: it ends early"
                           (ost-answer ?f (orgstore-recover))))
    (should (orgstore--gate-open-p ost-dir))
    (ost-answer ?k (orgstore-recover))
    (should-not (orgstore--gate-open-p ost-dir))
    (should (string-search ": * N\n" (car (ost-files "unfinished"))))
    (should (equal (cdr (assoc "a.org" ost-ab)) (ost-disk "a.org")))))

;; Of version 3, and with bytes that would act on a terminal.
(ost-alone forgotten-version-3 ost-ab
  (let ((bytes (ost-record 3 '("a.org" 40 16 "* One\n" "" (6 . "\e]0;EVIL\a\342\200\256x\nline\n")))))
    (ost-journal bytes)
    (ost-told (ost-open "a.org"))
    (unless (orgstore--gate-open-p ost-dir) (ost-journal bytes))
    (should (string-search "| ?]0;EVIL??x\n      | line\n" (ost-answer ?k (orgstore-recover))))
    (should-not (orgstore--gate-open-p ost-dir))
    (should (equal (list bytes) (ost-files "forgotten")))))

;; Nothing is forgotten before its copy is on the device, and what was made goes again.
(ost-alone copies-not-synced ost-ab
  (ost-refiled)
  (let ((journal (ost-disk "orgstore.journal")) (files (directory-files ost-dir)))
    (ost-visit "b.org")
    (dolist (key '(?k ?f))
      (cl-letf (((symbol-function 'call-process) (lambda (&rest _) 1)))
        (should (string-search "can't be synced"
                               (error-message-string
                                (should-error (ost-answer key (orgstore-recover))))))))
    (should (equal journal (ost-disk "orgstore.journal")))
    (should (equal files (directory-files ost-dir)))))

(ost-alone older-program-without-options ost-ab
  (ost-refiled)
  (ost-visit "b.org")
  (let ((real (symbol-function 'orgstore--run)))
    (cl-letf (((symbol-function 'orgstore--run)
               (lambda (root names &optional lines option)
                 (if option '(2 . "error: unexpected argument\n") (funcall real root names lines)))))
      (should (string-search "needs `--forget': do ./install anew"
                             (error-message-string
                              (should-error (ost-answer ?k (orgstore-recover)))))))))

;;;; Kills

(defun ost-kill-answers (key settled)
  "Answer KEY while the program is killed at each of its calls in turn.
After each kill the same answer ends it, and SETTLED is called to judge."
  (let ((at 0) (going t))
    (while going
      (when (> (cl-incf at) 100) (error "It doesn't end"))
      (dolist (it (directory-files ost-dir t "before\\|forgotten\\|unfinished"))
        (delete-file it))
      (ost-refiled)
      (ost-visit "b.org")
      (let ((killed (ost-killed)) (real (symbol-function 'orgstore--run)))
        (cl-letf (((symbol-function 'orgstore--run)
                   (lambda (root names &optional lines option)
                     (when option (ost-plan "kill" at))
                     (funcall real root names lines option))))
          (ignore-errors (ost-answer key (orgstore-recover))))
        (setq going (> (ost-killed) killed))
        (when (file-exists-p (ost-planned)) (delete-file (ost-planned)))
        (when (orgstore--gate-open-p ost-dir)
          (ost-answer key (orgstore-recover))))
      (should-not (orgstore--gate-open-p ost-dir))
      (ost-close)
      (funcall settled))
    (should (> at 4))))

(ost-alone killed-while-adopting ost-ab
  (ost-kill-answers ?f (lambda ()
                         (should (equal "* There\n** One\ntext\n" (ost-disk "b.org")))
                         (should-not (string-search "One" (ost-disk "a.org")))
                         (should (member "* One\ntext\n* Two\n* Three from the phone\n"
                                         (ost-files "\\`a\\.org\\.before-"))))))

(ost-alone killed-while-forgetting ost-ab
  (ost-kill-answers ?k (lambda ()
                         (should (equal "* One\ntext\n* Two\n* Three from the phone\n" (ost-disk "a.org")))
                         (should (ost-files "\\`orgstore\\.journal\\.forgotten-"))
                         (dolist (it (ost-files "\\`unfinished-"))
                           (should (string-search "\n: ** One\n: text\n" it))))))

;;;; What was finished is said

(ost-alone finished-archive ost-ab
  (setq orgstore--finished nil)
  (let ((text "archive of \\(?:[-0-9]+ \\)?[0-9]+:[0-9]+: a\\.org, a\\.org_archive"))
    (ost-tear 'archive #'org-archive-subtree)
    (setq orgstore--cut-run nil)
    (should (string-match-p (concat "Finished after a crash: " text) (ost-visit "a.org")))
    (should-not (orgstore--gate-open-p ost-dir))
    (should (string-search "* One" (ost-disk "a.org_archive")))
    (save-window-excursion (orgstore-status))
    (with-current-buffer "*orgstore status*"
      (should (string-match-p (concat "^Finished after a crash:\n .*" text) (buffer-string))))
    ;; It is said once.
    (ost-close)
    (should-not (string-search "Finished" (ost-visit "a.org")))
    (should (= 1 (length orgstore--finished)))))

(ost-alone finished-in-words ost-ab
  (set-file-times (ost-journal (ost-record 2 '("work.org_archive" 40 nil nil nil (0 . "* A\n:ARCHIVE_TIME: x\n"))
                                           '("work.org" 3 nil nil nil (0 . "* B"))))
                  (encode-time '(0 1 12 1 7 2026 nil nil nil)))
  (should (equal "archive of 12:01: work.org, work.org_archive"
                 (orgstore--change-text (orgstore--unfinished ost-dir))))
  ;; A change of both by hand is none.
  (set-file-times (ost-journal (ost-record 2 '("work.org_archive" 40 nil nil nil (0 . "* A\n"))
                                           '("work.org" 3 nil nil nil (0 . "* B"))))
                  (encode-time '(0 1 12 30 6 2026 nil nil nil)))
  (should (equal "change of 2026-06-30 12:01: work.org, work.org_archive"
                 (orgstore--change-text (orgstore--unfinished ost-dir)))))

;; Emacs knows which of its commands it was.
(ost-alone finished-command ost-ab
  (let ((this-command 'org-refile) (ost-torn nil))
    (ost-tear-refile))
  (should (string-match-p "Finished after a crash: org-refile of .*: a\\.org, b\\.org" (ost-visit "b.org")))
  (should (equal "* There\n** One\ntext\n" (ost-disk "b.org"))))

;; What is fine is finished by the answer too, and nothing is copied.
(ost-alone finished-when-asked ost-ab
  (ost-tear-refile)
  (cl-letf (((symbol-function 'orgstore--finish) #'ignore)) (ost-open "b.org"))
  (should (string-search "Finished after a crash" (ost-told (ost-answer ?f (orgstore-recover)))))
  (should (equal "* There\n** One\ntext\n" (ost-disk "b.org")))
  (should-not (ost-files "before"))
  (should (string-search "are whole" (ost-told (orgstore-recover)))))

;;;; Nothing is saved around an open gate

(ost-alone no-save-around-the-gate ost-ab
  (ost-refiled)
  (ost-visit "a.org")
  (let ((a (ost-disk "a.org")))
    ;; As a client does that lets Emacs write what the store can't.
    (cl-letf (((symbol-function 'orgstore--write) #'ignore)
              ((symbol-function 'orgstore--finish) #'ignore))
      (insert "x")
      (let ((words (ost-save-error)))
        (should (string-search "Nothing is saved (a.org): a change in" words))
        (should (string-search "M-x orgstore-recover" words)))
      (should (equal a (ost-disk "a.org"))))
    (ost-answer ?k (orgstore-recover))
    (set-buffer "a.org")
    (cl-letf (((symbol-function 'orgstore--write) #'ignore)
              ((symbol-function 'yes-or-no-p) #'always))
      (save-buffer))
    (should (equal (concat "x" a) (ost-disk "a.org")))))

(provide 'orgstore-recover-tests)
;;; orgstore-recover-tests.el ends here
