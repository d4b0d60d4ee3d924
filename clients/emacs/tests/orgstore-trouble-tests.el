;;; orgstore-trouble-tests.el --- What goes wrong  -*- lexical-binding: t; -*-

;; SPDX-License-Identifier: MIT OR Apache-2.0

;; This file is not part of GNU Emacs.

;;; Commentary:

;; Errors, kills, hanging programs, other writers: by the store alone.

;;; Code:

(require 'orgstore-test-support)
(setq ost-file (or load-file-name buffer-file-name))

(defconst ost-ab '(("a.org" . "#+TITLE: A\n* One\ntext\n** Child\n* Two\n* Run\nfirst\n* Run\nsecond\n")
                  ("b.org" . "* Target\n** There\n* Last\n")))


;;;; By the store alone: trouble

(ost-alone error-in-the-middle ost-ab
  (let ((before (ost-tree ost-dir)))
    (ost-open "a.org")
    (let ((org-after-refile-insert-hook (list (lambda () (error "Mine")))))
      (should (equal "Mine" (cadr (should-error (ost-refile "One" "b.org" "There"))))))
    (should (equal before (ost-tree ost-dir)))
    (should (equal (ost-names (ost-modified)) '("b.org")))
    (ost-open "a.org")
    (let ((org-archive-hook (list (lambda () (signal 'quit nil)))))
      (ost-open "a.org" "Two")
      (should (eq 'caught (condition-case nil (org-archive-subtree) (quit 'caught)))))
    (should-not (file-exists-p (ost-path "a.org_archive")))
    (should (equal before (ost-tree ost-dir)))
    ;; They are bound: a save of one saves both.
    (ost-open "a.org" "Two") (org-cut-subtree)
    (should (= 3 (length (ost-modified))))))

(ost-alone bound-after-error ost-ab
  (ost-open "a.org")
  (cl-letf (((symbol-function 'org-bookmark-jump-unhide) #'ignore))
    (advice-add 'org-refile :after (lambda (&rest _) (error "Late")) '((name . ost-late)))
    (unwind-protect (should-error (ost-refile "One" "b.org" "There"))
      (advice-remove 'org-refile 'ost-late)))
  (ost-open "a.org")
  (when (= 2 (length (ost-modified)))
    (ost-cmd 1 (with-current-buffer "a.org" (save-buffer)))))

(ost-alone failed-command ost-ab
  (ost-open "b.org") (ost-open "a.org")
  (let ((before (ost-tree ost-dir)))
    (orgstore--before-command) (ost-move) (orgstore--command-error) (orgstore--after-command)
    (should (equal before (ost-tree ost-dir)))
    (should (= 2 (length (ost-modified))))
    (ost-cmd 1 (with-current-buffer "b.org" (save-buffer)))))

(ost-alone killed-program ost-ab
  (let ((at 0) (going t) kinds)
    (while going
      (setq at (1+ at) going nil)
      (when (> at 200) (error "It doesn't end"))
      (ost-close) (delete-file (ost-path "orgstore.journal"))
      (pcase-dolist (`(,name . ,text) ost-ab) (ost-write name text))
      (setq orgstore--bonds nil)
      (let ((before (ost-tree ost-dir)) (killed (ost-killed)) err)
        (ost-open "a.org") (ost-open "b.org")
        (ost-open "a.org") (ost-plan "kill" at)
        (condition-case e (ost-refile "One" "b.org" "There") (error (setq err e)))
        (when (file-exists-p (ost-planned)) (error "No run"))
        (should-not (orgstore--gate-open-p ost-dir))
        (if err
            (progn (push 'before kinds)
                   (should (equal before (ost-tree ost-dir)))
                   (should (= 2 (length (ost-modified))))
                   (should (string-match-p "killed" (cadr err)))
                   ;; It is tried again by a save.
                   (ost-cmd nil (with-current-buffer "a.org" (save-buffer))))
          (push 'after kinds)
          (should-not (ost-modified)))
        (should-not (string-search "One" (ost-disk "a.org")))
        (should (string-search "*** One" (ost-disk "b.org")))
        (setq going (> (ost-killed) killed))))
    (should (> at 8))
    (should (memq 'before kinds))
    (should (memq 'after kinds))))

(ost-alone hanging-program ost-ab
  (let ((orgstore-timeout 1) (before (ost-tree ost-dir)) (start (time-convert nil 'integer)))
    (ost-open "a.org") (ost-plan "stop" 4)
    (should (string-match-p "didn't end within" (cadr (should-error (ost-refile "One" "b.org" "There")))))
    (should (equal before (ost-tree ost-dir)))
    (should (= 2 (length (ost-modified))))
    ;; It hangs each time.
    (ost-plan "stop!" 4)
    (should-error (with-current-buffer "a.org" (save-buffer)))
    (should (< (- (time-convert nil 'integer) start) 12))
    (delete-file (ost-planned))
    (ost-cmd 1 (with-current-buffer "a.org" (save-buffer)))))

;; A quit while the program runs: it is killed, and the files looked at.
(ost-alone quit-in-the-write ost-ab
  (let ((before (ost-tree ost-dir)) (real (symbol-function 'accept-process-output)) (n 0))
    (ost-open "a.org")
    (ost-plan "stop" 4)
    (cl-letf (((symbol-function 'accept-process-output)
               (lambda (&rest args) (if (= 8 (cl-incf n)) (signal 'quit nil) (apply real args)))))
      (should (string-match-p "stopped" (cadr (should-error (ost-refile "One" "b.org" "There"))))))
    (should (equal before (ost-tree ost-dir)))
    (should (= 2 (length (ost-modified))))
    (ost-cmd 1 (with-current-buffer "b.org" (save-buffer)))))

;; Another program writes a file between Emacs's look at it and the program's.
(ost-alone refused-line ost-ab
  (ost-open "a.org")
  (let ((real (symbol-function 'orgstore--write-folder)) (n 0))
    (cl-letf (((symbol-function 'orgstore--write-folder)
               (lambda (it) (when (= 1 (cl-incf n)) (ost-write "b.org" "x\n")) (funcall real it))))
      (should (string-match-p "changed on the disk" (cadr (should-error (ost-refile "One" "b.org" "There")))))))
  (should (equal (cdr (assoc "a.org" ost-ab)) (ost-disk "a.org")))
  (should (= 2 (length (ost-modified))))
  (cl-letf (((symbol-function 'yes-or-no-p) (lambda (_) t)))
    (ost-cmd 1 (with-current-buffer "a.org" (save-buffer)))))

;; Of independent saves one that the user doesn't want keeps back no other.
(ost-alone save-some-changed-outside ost-ab
  (ost-open "b.org" "Last") (insert "x\n") (ost-open "a.org" "Two") (insert "x\n")
  (ost-write "b.org" "* New\n") (set-file-times (ost-path "b.org") (encode-time '(0 0 0 1 1 2027 nil nil nil)))
  (cl-letf (((symbol-function 'yes-or-no-p) (lambda (_) nil)))
    (should-error (save-some-buffers t)))
  (should (equal '("b.org") (ost-names (ost-modified))))
  (should-not orgstore--bonds)
  (should (equal "* New\n" (ost-disk "b.org")))
  (cl-letf (((symbol-function 'yes-or-no-p) (lambda (_) t))) (ost-cmd 1 (save-some-buffers t))))

;; A hook of the user's that fails after the write: all is saved, and it is reported.
(ost-alone failing-after-save-hook ost-ab
  (ost-open "a.org")
  (let ((after-save-hook (list (lambda () (when (equal (buffer-name) "b.org") (error "Mine"))))))
    (should (equal "Mine" (cadr (should-error (ost-refile "One" "b.org" "There"))))))
  (should-not (ost-modified))
  (should-not (string-search "One" (ost-disk "a.org"))))

(ost-alone no-program ost-ab
  (ost-open "a.org") (setq orgstore-program "/nowhere/orgstore")
  (should-error (ost-refile "One" "b.org" "There"))
  (should (= 2 (length (ost-modified))))
  (should (equal (cdr (assoc "a.org" ost-ab)) (ost-disk "a.org")))
  (setq orgstore-program (ost-program-file))
  (ost-cmd 1 (org-save-all-org-buffers)))

;; What the store can't save Emacs can, if the user wants it.
(defun ost-asked (answer function)
  "Call FUNCTION, answer ANSWER to what is asked, and return the questions."
  (let (noninteractive asked)
    (cl-letf (((symbol-function 'yes-or-no-p) (lambda (prompt) (push prompt asked) answer)))
      (funcall function))
    asked))

(ost-alone no-program-as-emacs ost-ab
  (ost-open "a.org")
  (let ((before (ost-tree ost-dir)) (orgstore-program "/nowhere/orgstore"))
    (ost-asked nil (lambda () (should-error (ost-refile "One" "b.org" "There"))))
    (should (equal before (ost-tree ost-dir)))
    (should (= 2 (length (ost-modified))))
    (let ((asked (ost-asked t (lambda () (with-current-buffer "a.org" (save-buffer))))))
      (should (string-match-p "no program.*Save a.org, b.org as Emacs does\\?" (car asked)))
      (should-not (cdr asked))))
  (should-not (ost-modified))
  (should-not orgstore--bonds)
  (should-not (string-search "One" (ost-disk "a.org")))
  (should (string-search "*** One" (ost-disk "b.org")))
  (ost-open "a.org" "Two")
  (ost-cmd 1 (org-todo "TODO")))

;; While a step that was cut short isn't finished nothing is saved around the store.
(ost-alone no-program-and-an-open-step '(("a.org" . "* OLD\n") ("b.org" . "* OLD\n"))
  (ost-open "a.org") (goto-char (point-max)) (insert "typed\n")
  (ost-tear)
  (let ((torn (ost-tree ost-dir)) (orgstore-program "/nowhere/orgstore"))
    (should-not (ost-asked t (lambda () (should-error (save-buffer)))))
    (should (equal torn (ost-tree ost-dir))))
  (set-buffer-modified-p nil))

(ost-alone too-large-as-emacs (list (cons "a.org" (concat "* A\n" (apply #'concat (make-list 67109 (concat (make-string 999 ?x) "\n"))))) (cons "b.org" "* B\n"))
  (let (large-file-warning-threshold)
    (ost-open "a.org" "A")
    (ost-asked nil (lambda () (should-error (org-todo "TODO"))))
    (should (equal "* A\n" (substring (ost-disk "a.org") 0 4)))
    (let ((asked (ost-asked t #'save-buffer)))
      (should (string-match-p "64 MiB.*Save a.org as Emacs does\\?" (car asked))))
    (should-not (ost-modified))
    (should (equal "* TODO A\nx" (substring (ost-disk "a.org") 0 10)))
    (ost-open "b.org") (ost-cmd 1 (org-todo "TODO"))))

(ost-alone changed-outside ost-ab
  (ost-open "b.org") (ost-open "a.org")
  (ost-write "b.org" "* Target\n** There\n* Other\n") (set-file-times (ost-path "b.org") (encode-time '(0 0 0 1 1 2027 nil nil nil)))
  (let ((before (ost-tree ost-dir)) asked)
    (cl-letf (((symbol-function 'yes-or-no-p) (lambda (p) (push p asked) nil))
              ((symbol-function 'userlock--ask-user-about-supersession-threat) #'ignore))
      (should-error (ost-refile "One" "b.org" "There")))
    (should (string-match-p "b.org has changed since visited" (car asked)))
    (should (equal before (ost-tree ost-dir)))
    (should (= 2 (length (ost-modified))))
    (cl-letf (((symbol-function 'yes-or-no-p) (lambda (_) t)))
      (ost-cmd 1 (with-current-buffer "a.org" (save-buffer))))
    (should-not (string-search "Other" (ost-disk "b.org")))))

(ost-alone undo-last ost-ab
  (ost-open "a.org") (goto-char (point-min)) (insert "# typed\n")
  (let ((typed (concat "# typed\n" (cdr (assoc "a.org" ost-ab)))))
    (ost-cmd 1 (ost-refile "One" "b.org" "There"))
    (ost-open "a.org" "Run") (ost-cmd 1 (org-archive-subtree))
    (ost-cmd 1 (orgstore-undo-last))
    (ost-cmd 1 (orgstore-undo-last))
    (should (equal (ost-disk "a.org") typed))
    (should (equal (ost-disk "b.org") (cdr (assoc "b.org" ost-ab))))
    (ost-cmd 1 (orgstore-undo-last))
    (should (equal (ost-disk "a.org") (cdr (assoc "a.org" ost-ab))))
    (should-error (orgstore-undo-last))))

;; A cut that wasn't saved yet is saved with the command, and taken back after it.
(ost-alone undo-last-of-what-was-bound ost-ab
  (let ((before (ost-tree ost-dir)) between)
    (ost-open "a.org" "One") (ost-keys "C-c C-x C-w")
    (ost-open "b.org" "Last") (ost-keys "C-c C-x C-y")
    (ost-open "a.org" "Two")
    (ost-cmd 1 (org-todo "TODO"))
    (should (string-search "* One" (ost-disk "b.org")))
    (ost-cmd 1 (orgstore-undo-last))
    (setq between (ost-tree ost-dir))
    (should (string-search "* Two" (ost-disk "a.org")))
    (should (string-search "* One" (ost-disk "b.org")))
    (should-not (string-search "* One" (ost-disk "a.org")))
    (ost-cmd 1 (orgstore-undo-last))
    (should (equal before (ost-tree ost-dir)))
    (should-not (equal before between))))

;; Else `Wrote..' takes the place of what Org said.
(ost-alone said-by-the-command ost-ab
  (let* (silent
         (after-save-hook (list (lambda () (push save-silently silent)))))
    (ost-open "a.org" "One")
    (cl-letf (((symbol-function 'current-message) (lambda () "Said")))
      (ost-cmd 1 (org-todo "TODO")))
    (ost-cmd 1 (org-todo "DONE"))
    (insert "x")
    (cl-letf (((symbol-function 'current-message) (lambda () "Said")))
      (ost-cmd 1 (save-buffer)))
    (should (equal silent '(nil nil "Said")))))

(ost-alone torn-folder ost-ab
  (let ((at 0))
    (while (not (orgstore--gate-open-p ost-dir))
      (when (> (cl-incf at) 200) (error "Never open"))
      (ost-close)
      (pcase-dolist (`(,name . ,text) ost-ab) (ost-write name text))
      (ost-open "a.org") (ost-plan "kill" at)
      (cl-letf (((symbol-function 'orgstore--finish) #'ignore))
        (ignore-errors (ost-refile "One" "b.org" "There")))))
  (ost-close)
  (with-current-buffer (find-file-noselect (ost-path "b.org"))
    (should-not (orgstore--gate-open-p ost-dir))
    (should (string-search "*** One" (buffer-string))))
  (should-not (string-search "One" (ost-disk "a.org"))))

(defun ost-tear ()
  "Leave a step over both files that was cut short, one of them being written."
  (let ((at 0))
    (while (not (and (orgstore--gate-open-p ost-dir)
                     (equal "* NEW" (substring (ost-disk "a.org") 0 5))))
      (when (> (cl-incf at) 200) (error "Never half written"))
      ;; Emacs itself would ask where it visits one.
      (call-process "sh" nil nil nil "-c" "cd \"$0\"; rm -f orgstore.journal; echo '* OLD' | tee a.org > b.org" ost-dir)
      (ost-plan "kill" at)
      (orgstore--run-once (ost-program-file) ost-dir '("a.org" "b.org")
                          "edit\ta.org\t2\tOLD\tNEW\nedit\tb.org\t2\tOLD\tNEW\nsettle\n"))
    (should (equal "* OLD\n" (ost-disk "b.org")))))

;; Where a step is finished after its save failed, its buffers are those of the files.
(dolist (how '(by-recover by-visit))
  (unless ost-plain
    (ert-set-test
     (intern (format "store/finished-%s" how))
     (make-ert-test
      :name (intern (format "store/finished-%s" how))
      :body (lambda ()
              (ost-run ost-ab
                       (lambda ()
                         (let ((at 0))
                           (while (not (orgstore--gate-open-p ost-dir))
                             (when (> (cl-incf at) 200) (error "Never open"))
                             (ost-close)
                             (pcase-dolist (`(,name . ,text) ost-ab) (ost-write name text))
                             (ost-open "a.org") (ost-plan "kill" at)
                             (cl-letf (((symbol-function 'orgstore--finish)
                                        (lambda (_) (and (orgstore--gate-open-p ost-dir) "It isn't finished"))))
                               (ignore-errors (ost-refile "One" "b.org" "There")))))
                         (should (= 2 (length (ost-modified))))
                         (pcase how
                           ('by-recover
                            (set-buffer "a.org")
                            (require 'orgstore-recover nil t)
                            (cl-letf (((symbol-function 'orgstore--ask) (lambda (_) ?f))) (orgstore-recover))
                            (should-not (ost-modified)))
                           ('by-visit (orgstore--before-read (ost-path "b.org"))))
                         (should (string-search "*** One" (ost-disk "b.org")))
                         (let ((after (ost-tree ost-dir)))
                           (should-not (ost-asked nil (lambda () (ost-cmd 0 (with-current-buffer "a.org" (save-buffer))))))
                           (should-not orgstore--bonds)
                           (should (equal after (ost-tree ost-dir)))))))))))

;; Whatever reads a file of the folder finds the step done.
(pcase-dolist (`(,name . ,reads)
               '((revert . (lambda () (with-current-buffer "a.org" (revert-buffer t t))))
                 (auto-revert . (lambda () (with-current-buffer "a.org"
                                             (let (auto-revert-use-notify)
                                               (auto-revert-mode 1)
                                               (auto-revert-buffers)))))
                 (agenda . (lambda () (ost-close) (org-tags-view nil "LEVEL=1")))
                 (org-id . (lambda () (org-id-update-id-locations (list (ost-path "b.org")) t)))))
  (unless ost-plain
    (ert-set-test
     (intern (format "store/torn-folder-%s" name))
     (make-ert-test
      :name (intern (format "store/torn-folder-%s" name))
      :body (lambda ()
              (ost-run '(("a.org" . "* OLD\n") ("b.org" . "* OLD\n"))
                       (lambda ()
                         (ost-open "a.org")
                         (ost-tear)
                         ;; Files of one moment and one size look the same to Emacs; one that was
                         ;; written long after the journal isn't the store's.
                         (set-file-times (ost-path "a.org") (encode-time '(0 0 0 1 1 2026 nil nil nil)))
                         (funcall reads)
                         (should-not (orgstore--gate-open-p ost-dir))
                         (should (equal "* NEW\n" (ost-disk "b.org")))
                         (when (get-buffer "a.org")
                           (with-current-buffer "a.org"
                             (revert-buffer t t)
                             (should (equal "* NEW\n" (buffer-string))))))))))))

(ost-alone version-control ost-ab
  (skip-unless (executable-find "git"))
  (let ((default-directory ost-dir))
    (dolist (it '(("init" "-q") ("add" "a.org")
                  ("-c" "user.name=T" "-c" "user.email=t@example.org" "commit" "-qm" "A")))
      (should (equal 0 (apply #'call-process "git" nil nil nil it)))))
  (ost-open "a.org" "One")
  (should (string-prefix-p " Git-" vc-mode))
  (ost-cmd 1 (org-todo "TODO"))
  (should (string-prefix-p " Git:" vc-mode))
  (should (eq 'edited (vc-state (ost-path "a.org")))))

(ost-alone two-stores-crash '(("a.org" . "* A\n* B\n") ("sub/c.org" . "* C\n") ("sub/orgstore.journal" . ""))
  ;; The second run is killed: the entry stands twice, not nowhere.
  (let ((real (symbol-function 'orgstore--write-folder)) (n 0))
    (cl-letf (((symbol-function 'orgstore--write-folder)
               (lambda (it) (when (= 2 (cl-incf n)) (ost-plan "kill" 2)) (funcall real it))))
      (ost-open "a.org") (should-error (ost-refile "A" "sub/c.org" "C"))))
  (should (string-search "* A" (ost-disk "a.org")))
  (should (string-search "** A" (ost-disk "sub/c.org")))
  (should (equal '("a.org") (ost-names (ost-modified)))))

(ost-alone locks-and-auto-save ost-ab
  (let ((create-lockfiles t) (auto-save-default t))
    (ost-open "a.org" "Two") (auto-save-mode 1) (insert "x\n")
    (should (file-symlink-p (ost-path ".#a.org")))
    (do-auto-save t) (should (file-exists-p (ost-path "#a.org#")))
    (ost-cmd 1 (save-buffer))
    (should-not (file-symlink-p (ost-path ".#a.org")))
    (should-not (file-exists-p (ost-path "#a.org#")))
    (should (verify-visited-file-modtime))))

(ost-alone edits nil
  (random "seed")
  (dotimes (_ 300)
    (let* ((lines (lambda () (mapconcat (lambda (_) (format "%d\\%s\n" (random 40) (make-string (random 30) ?x)))
                                        (make-list (random 120) 0) "")))
           (old (funcall lines)) (new (if (= 0 (random 3)) (funcall lines)
                                        (let ((a (random (1+ (length old)))) (b (random (1+ (length old)))))
                                          (concat (substring old 0 (min a b)) (funcall lines) (substring old (min a b) (max a b))
                                                  (and (= 0 (random 2)) "end") (substring old (max a b)))))))
      (dolist (orgstore--most-edits '(1000 0))
        (let ((edits (orgstore--edits old new)))
          (should (equal new (orgstore--patched old edits)))
          (should (equal old (orgstore--patched new (orgstore--reversed edits))))))))
  (let* ((old (make-string 3000000 ?\t)) (new (concat "a" (make-string 2600000 ?\n))) (edits (orgstore--edits old new)))
    (should (equal new (orgstore--patched old edits)))
    (dolist (it edits) (should (< (length (orgstore--line "a.org" it)) 1048576)))))

(ost-alone big-file (list (cons "a.org" (apply #'concat (make-list 40000 "* A heading of some length\nwith\ta body\\\n"))) (cons "b.org" "* T\n"))
  (ost-open "a.org") (goto-char (point-max)) (insert "* Last one\n") (goto-char (point-min)) (insert "* First one\n")
  (ost-cmd 1 (ost-refile "First one" "b.org" "T"))
  (with-current-buffer "a.org" (erase-buffer) (insert "* B\n") (ost-cmd 1 (save-buffer)))
  (should (equal "* B\n" (ost-disk "a.org"))))

;;;; What a save writes

(defun ost-scramble ()
  "Change the current buffer in some way."
  (let* ((size (buffer-size))
         (a (1+ (random (1+ size)))) (b (1+ (random (1+ size))))
         (from (min a b)) (to (min (max a b) (+ from 40)))
         (word (nth (random 6) '("x" "ü" "\n* H\n" "☃ snow" "\t\\" "𝄞"))))
    (goto-char from)
    (pcase (random 12)
      ((or 0 1 2) (insert word))
      (3 (delete-region from to))
      (4 (upcase-region from to))
      (5 (subst-char-in-region from to ?x ?y))
      (6 (insert word) (undo-boundary) (primitive-undo 1 buffer-undo-list))
      (7 (replace-region-contents from to (lambda () (concat word word))))
      (8 (let ((inhibit-modification-hooks t)) (insert word)))
      (9 (combine-change-calls from to (delete-region from to)))
      (10 (with-silent-modifications (put-text-property from to 'face 'bold)))
      (11 (with-current-buffer (make-indirect-buffer (current-buffer) "ost-indirect" (= 0 (random 2)))
            (goto-char from) (insert word) (kill-buffer))))))

;; Most texts are in Emacs the bytes of their files already, and aren't encoded once
;; more: after each change these have to be the bytes that Emacs itself would write.
(ost-alone text-bytes `(("a.org" . ,(apply #'concat (make-list 30 "* Head ü\ntext ☃ x\n"))))
  (random "seed")
  (ost-open "a.org")
  (buffer-enable-undo)
  (setq-local require-final-newline nil)
  (let ((encode (symbol-function 'orgstore--bytes-by-emacs)) (n 0))
    (dotimes (_ 200)
      (dotimes (_ (1+ (random 4))) (ost-scramble))
      (let ((all (funcall encode)))
        (cl-letf (((symbol-function 'orgstore--bytes-by-emacs) (lambda () (setq n (1+ n)) (funcall encode))))
          (should (equal all (orgstore--text-bytes))))
        (when (= 0 (random 3))
          (ost-cmd nil (save-buffer))
          (should (equal (car all) (ost-disk "a.org"))))))
    (should (= 0 n))))

;; These texts Emacs itself encodes: some of their bytes aren't those that it has.
(ost-alone not-one-to-one
    '(("crlf.org" . "* A\r\nx\r\n") ("latin.org" . "# -*- coding: latin-1 -*-\n* B\374ro\n")
      ("bom.org" . "\357\273\277* A\nx\n") ("raw.org" . "* A\n\377 \303\274\nx\n")
      ("cookie.org" . "* A\nx\n"))
  (let* ((encode (symbol-function 'orgstore--bytes-by-emacs)) (n 0))
    (cl-letf (((symbol-function 'orgstore--bytes-by-emacs) (lambda () (setq n (1+ n)) (funcall encode))))
      (dolist (name '("crlf.org" "latin.org" "bom.org" "raw.org"))
        (ost-open name)
        (insert "* New\n")
        (ost-cmd 1 (save-buffer))))
    (should (= 4 n)))
  (ost-open "cookie.org")
  (insert "# -*- coding: latin-1 -*-\n* Bü\n")
  (ost-cmd 1 (save-buffer))
  (should (string-prefix-p "# -*- coding: latin-1 -*-\n* B\374\n" (ost-disk "cookie.org"))))

;; Text that isn't saved yet, far from what a command changes, doesn't make it slow.
(ost-alone far-unsaved-text
    (list (cons "a.org" (apply #'concat "* One\n"
                               (mapcar (lambda (i) (format "* A heading, übung %d\nwith a body of some length\n" i))
                                       (number-sequence 1 150000)))))
  (let* ((took (lambda (state)
                 (ost-open "a.org" "One")
                 (garbage-collect)
                 (let ((start (float-time (get-internal-run-time))))
                   (ost-cmd 1 (org-todo state))
                   (- (float-time (get-internal-run-time)) start))))
         (near (min (funcall took "TODO") (funcall took "DONE"))))
    (ost-open "a.org")
    (goto-char (point-max))
    (insert "* Typed\n")
    (let ((far (funcall took "TODO"))) (should (< far (* 5 near))))
    (should (string-prefix-p "* TODO One\n* A h" (ost-disk "a.org")))
    (should (string-suffix-p "length\n* Typed\n" (ost-disk "a.org")))
    ;; That text was there before.
    (orgstore-undo-last)
    (should (string-prefix-p "* DONE One\n* A h" (ost-disk "a.org")))
    (should (string-suffix-p "length\n* Typed\n" (ost-disk "a.org")))))

;;;; Notes, prompts and captures

(ost-alone note-and-state-are-one '(("a.org" . "#+TODO: TODO | DONE(d!)\n* TODO A\n"))
  (let ((before (ost-disk "a.org")))
    (ost-open "a.org" "A")
    (goto-char (point-max)) (insert "typed\n")
    (ost-open "a.org" "A")
    (ost-cmd 1 (org-todo "DONE"))
    (should (string-search "- State" (ost-disk "a.org")))
    (orgstore-undo-last)
    (should (equal (concat before "typed\n") (ost-disk "a.org")))))

;; From Lisp, where no command goes on, nothing waits for the note.
(ost-alone note-in-lisp '(("a.org" . "#+TODO: TODO | DONE(d!)\n* TODO A\n"))
  (ost-open "a.org" "A")
  (org-todo "DONE")
  (should (string-search "* DONE A" (ost-disk "a.org")))
  (ost-logged)
  (should (string-search "- State" (ost-disk "a.org"))))

(defun ost-move-and-ask ()
  "Move a line, and wait for the user."
  (interactive)
  (ost-move)
  (recursive-edit)
  (with-current-buffer "b.org" (goto-char (point-max)) (insert "end\n")))

;; What the user saves while a step asks something is on the disk.
(ost-alone save-at-a-prompt ost-ab
  (ost-open "b.org")
  (ost-open "a.org")
  (let (seen)
    (cl-letf* (((symbol-function 'ost-ask) (lambda () (interactive) (orgstore-as-step #'ost-move-and-ask)))
               ((symbol-function 'ost-look)
                (lambda () (interactive) (push (list (ost-disk "a.org") (ost-disk "b.org")) seen))))
      (global-set-key (kbd "C-c l") 'ost-look)
      (global-set-key (kbd "C-c a") 'ost-ask)
      (ost-keys "C-c a C-c l C-x C-s C-c l C-M-c"))
    (should (equal (mapcar (lambda (it) (string-search "TITLE" (nth 1 it))) (nreverse seen))
                   (list nil (string-search "TITLE" (ost-disk "b.org"))))))
  (should (string-suffix-p "end\n" (ost-disk "b.org")))
  (should-not (ost-modified)))

;; What is done in an open capture is written with it, or not at all.
(ost-alone command-in-a-capture ost-ab
  (setq org-capture-templates `(("c" "" entry (file+headline ,(ost-path "b.org") "Last") "* TODO Call %?")))
  (ost-open "b.org")
  (let ((before (ost-disk "b.org")))
    (org-capture nil "c")
    (insert "Ann")
    (orgstore-as-step #'org-todo "DONE")
    (should (equal before (ost-disk "b.org")))
    (org-capture-kill)
    (should (equal before (ost-disk "b.org"))))
  (org-capture nil "c")
  (insert "Bob")
  (org-todo "DONE")
  (ost-cmd 1 (org-capture-finalize))
  (should (string-search "** DONE Call Bob" (ost-disk "b.org"))))

;; What was captured is taken back as a whole.
(ost-alone undo-last-capture ost-ab
  (setq org-capture-templates `(("c" "" entry (file+headline ,(ost-path "b.org") "Last") "* TODO Call %?")))
  (let ((before (ost-tree ost-dir)))
    (ost-cmd 1 (ost-capture "c" "Ann"))
    (should (string-search "** TODO Call Ann" (ost-disk "b.org")))
    (ost-cmd 1 (orgstore-undo-last))
    (should (equal before (ost-tree ost-dir)))))

;; Both halves of a move that were undone by hand are saved together.
(ost-alone undone-by-hand ost-ab
  (let ((before (ost-tree ost-dir)))
    (ost-open "b.org") (buffer-enable-undo)
    (ost-open "a.org") (buffer-enable-undo) (undo-boundary)
    (ost-cmd 1 (ost-refile "One" "b.org" "There"))
    (dolist (name '("a.org" "b.org"))
      (ost-open name)
      (ost-keys "C-_"))
    (should (= 2 (length (ost-modified))))
    (ost-cmd 1 (save-buffer))
    (should (equal before (ost-tree ost-dir)))))

;;;; Commands that call others

(defun ost-two-states ()
  "Have an entry of each file be one to do, and fail."
  (interactive)
  (ost-open "a.org" "One") (org-todo "TODO")
  (ost-open "b.org" "Last") (org-todo "TODO")
  (error "Mine"))

;; Where the loop ends in an error nothing is written, and no part of it without the others.
(ost-alone failing-loop ost-ab
  (let ((before (ost-tree ost-dir)))
    (ost-open "a.org")
    (orgstore--before-command)
    (should-error (ost-two-states))
    (orgstore--command-error)
    (orgstore--after-command)
    (should (equal before (ost-tree ost-dir)))
    (should (= 2 (length (ost-modified))))
    (ost-cmd 1 (with-current-buffer "a.org" (save-buffer)))
    (should (string-search "TODO Last" (ost-disk "b.org")))
    (orgstore-undo-last)
    (should (equal before (ost-tree ost-dir)))))

;; What can't be written at the end of a command is told, and written later.
(ost-alone loop-on-a-full-disk ost-ab
  (let ((before (ost-tree ost-dir)) told)
    (ost-open "b.org" "Last") (ost-open "a.org" "One")
    (ost-plan "full!" 1)
    (cl-letf (((symbol-function 'message) (lambda (format &rest args) (push (apply #'format format args) told))))
      (orgstore--before-command)
      (org-todo "TODO") (ost-open "b.org" "Last") (org-todo "TODO")
      (orgstore--after-command))
    (should (seq-some (lambda (it) (string-match-p "Nothing is saved.*disk" it)) told))
    (should (equal before (ost-tree ost-dir)))
    (should (= 2 (length (ost-modified))))
    (delete-file (ost-planned))
    (ost-cmd nil (with-current-buffer "a.org" (save-buffer)))
    (should-not (ost-modified))))

;; `orgstore-as-step' has written its step when it returns, with what waits.
(ost-alone as-step-in-a-loop ost-ab
  (ost-open "a.org" "One")
  (ost-cmd 2
    (org-todo "TODO")
    (should (ost-modified))
    (orgstore-as-step (lambda () (ost-open "b.org" "Last") (org-todo "TODO")))
    (should-not (ost-modified)))
  (should (= 2 (length orgstore--history))))

;; A file whose ID isn't saved would have its attachments nowhere.
(ost-alone attach-is-a-step '(("a.org" . "* One\n"))
  (ost-write "doc.txt" "DOC")
  (let ((org-attach-method 'mv))
    (ost-open "a.org" "One")
    (ost-plan "kill" 4)
    (should-error (org-attach-attach (ost-path "doc.txt")))
    (should (equal "* One\n" (ost-disk "a.org")))
    (ost-cmd nil (save-buffer))
    (should (equal "* One                                                                :ATTACH:\n:PROPERTIES:\n:ID:       id-1\n:END:\n"
                   (ost-disk "a.org")))))

;;;; The disk

(ost-alone full-disk ost-ab
  (let ((before (ost-tree ost-dir)))
    (ost-open "a.org")
    (ost-plan "full!" 1)
    (let ((text (error-message-string (should-error (ost-refile "One" "b.org" "There")))))
      (should (string-match-p "disk" text)))
    (should (equal before (ost-tree ost-dir)))
    (should (= 2 (length (ost-modified))))
    (delete-file (ost-planned))
    (ost-cmd nil (with-current-buffer "b.org" (save-buffer)))
    (should (string-search "*** One" (ost-disk "b.org")))
    (should-not (string-search "One" (ost-disk "a.org")))))

(ost-alone locked-folder ost-ab
  (skip-unless (executable-find "flock"))
  (ost-open "a.org" "One")
  (let ((lock (lambda (seconds)
                (prog1 (start-process "lock" nil "flock" ost-dir "sleep" seconds)
                  (sleep-for 0.3))))
        process)
    (funcall lock "0.7")
    (ost-cmd nil (org-todo "TODO"))
    (should (string-search "* TODO One" (ost-disk "a.org")))
    (setq process (funcall lock "60"))
    (ost-open "a.org" "Two")
    (let ((text (error-message-string (should-error (org-todo "TODO")))))
      (should (string-search "another store is open" text)))
    (should (ost-modified))
    (should-not (string-search "TODO Two" (ost-disk "a.org")))
    (kill-process process)
    (sleep-for 0.3)
    (ost-cmd nil (save-buffer))
    (should (string-search "TODO Two" (ost-disk "a.org")))))

;; As another user than root.
(ost-alone read-only-file ost-ab
  (skip-unless (/= 0 (user-uid)))
  (set-file-modes (ost-path "b.org") #o444)
  (let ((before (ost-tree ost-dir)) (inhibit-read-only t))
    (ost-open "a.org")
    (cl-letf (((symbol-function 'yes-or-no-p) (lambda (&rest _) nil)))
      (should-error (ost-refile "One" "b.org" "There")))
    (should (equal before (ost-tree ost-dir)))
    (cl-letf (((symbol-function 'yes-or-no-p) (lambda (&rest _) t)))
      (ost-cmd 1 (with-current-buffer "b.org" (save-buffer))))
    (should (string-search "*** One" (ost-disk "b.org")))
    (should (= #o444 (file-modes (ost-path "b.org"))))))

(ost-alone read-only-folder ost-ab
  (skip-unless (/= 0 (user-uid)))
  (ost-open "a.org" "One")
  (set-file-modes ost-dir #o555)
  (unwind-protect
      (let ((text (error-message-string (should-error (org-todo "TODO")))))
        (should (string-search "can't be written" text)))
    (set-file-modes ost-dir #o755))
  (ost-cmd nil (save-buffer)))

(provide 'orgstore-trouble-tests)
;;; orgstore-trouble-tests.el ends here
