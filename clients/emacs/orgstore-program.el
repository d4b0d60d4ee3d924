;;; orgstore-program.el --- Served files, and the program over them  -*- lexical-binding: t; -*-
;; SPDX-License-Identifier: MIT OR Apache-2.0

;;; Commentary:

;; Which files are served, and how the program is run over them.
;;
;; A served file has a place: the folder ROOT of its store, a true name that ends
;; in a slash, and its NAME there, which may have folders before it.  The program
;; is one process for each step, over lines in a file, so that it gets all of them
;; even where Emacs dies meanwhile.

;;; Code:

;; In Emacs 28 cl-lib and seq take 40 ms: not at the start, where nothing needs them.
(require 'subr-x)
(eval-when-compile (require 'cl-lib) (require 'rx))

(defgroup orgstore nil
  "Org's changes as crash-safe steps."
  :group 'org
  :prefix "orgstore-")

(defcustom orgstore-directory nil
  "The folder that is served, or a list of such folders.
With its subfolders each is one store.  A subfolder that has a journal is a
store of its own.  Two kinds aren't served: those whose names begin with a dot,
and those of another owner."
  :type '(choice (const :tag "None" nil) directory (repeat directory)))

(defcustom orgstore-program "orgstore"
  "The program: a name, found by the variable `exec-path', or a file name."
  :type 'string)

(defcustom orgstore-timeout 20
  "After how many seconds a program that doesn't end is killed."
  :type 'number)

(define-error 'orgstore-error "The store" 'file-error)

(declare-function orgstore--unfinished "orgstore-recover" (root))
(declare-function orgstore--change-text "orgstore-recover" (change) t)

(defun orgstore--fail (text &rest args)
  "Signal an `orgstore-error' of TEXT, formatted with ARGS."
  (signal 'orgstore-error (list (apply #'format text args))))

;;;; Which files are served

(defun orgstore--name-p (name)
  "Whether NAME, a string, is a file name that the program takes.
It may have folders before it."
  (let* ((case-fold-search nil)
         (base (string-remove-suffix "_archive" name))
         (bytes (encode-coding-string base 'utf-8-unix t)))
    (and (string-match-p "\\`\\([^./][^/]*/\\)*[^./][^/]*\\.org\\'" base)
         (not (string-match-p "\\.org\\(_archive\\)?/\\|[\0-\x1f\x7f]" base))
         (not (string-match-p "[^/]\\{201\\}" bytes))
         (<= (length bytes) 1000))))

(defun orgstore--tops (dir)
  "Return the folders of `orgstore-directory' that DIR is in, or is.
All of these are true names that end in a slash."
  (let (tops)
    (dolist (it (ensure-list orgstore-directory) (nreverse tops))
      (unless (file-remote-p it)
        (let ((top (file-name-as-directory (file-truename it))))
          (when (and (string-prefix-p top dir)
                     (not (string-match-p "\\`\\.\\|/\\."
                                          (substring dir (length top)))))
            (push top tops)))))))

(defun orgstore--owner (dir)
  "Return the number of the user who owns DIR, nil where it isn't there."
  (file-attribute-user-id (file-attributes dir 'integer)))

(defun orgstore--foreign (dir top)
  "Return the folder between TOP and DIR that another user owns, or nil.
Its owner may put a journal and links there, by which the program would write
files of ours.  So it is served only if `orgstore-directory' names it."
  (unless (equal dir top)
    (let ((owners (list nil (user-uid) (orgstore--owner top))) found)
      (while (> (length dir) (length top))
        (unless (memql (orgstore--owner dir) owners) (setq found dir))
        (setq dir (orgstore--above dir)))
      found)))

(defun orgstore--served-p (dir)
  "Whether the files of DIR, a true name that ends in a slash, are served."
  (let (found)
    (dolist (it (orgstore--tops dir) found)
      (unless (orgstore--foreign dir it) (setq found t)))))

(defun orgstore--part-p (dir)
  "Whether DIR, which has no journal, is part of a store in the folder above it.
A folder that isn't there yet is made as one."
  (let ((one (file-attributes dir 'integer))
        (above (file-attributes (orgstore--above dir) 'integer)))
    (and (orgstore--name-p (concat (file-name-nondirectory
                                    (directory-file-name dir))
                                   "/a.org"))
         (or (null one)
             (and (equal (file-attribute-user-id one)
                         (file-attribute-user-id above))
                  (equal (file-attribute-device-number one)
                         (file-attribute-device-number above)))))))

(defun orgstore--above (dir)
  "Return the folder above DIR; both names end in a slash."
  (file-name-directory (directory-file-name dir)))

(defun orgstore--root (dir)
  "Return the folder whose store has the files of DIR, nil if they aren't served.
From DIR upward that is the first with a journal, else the last in whose store
the files can be, but none above the folder of `orgstore-directory' that DIR is
in.  DIR is a true name that ends in a slash."
  (when (orgstore--served-p dir)
    (let ((top ""))
      (dolist (it (orgstore--tops dir))
        (when (> (length it) (length top)) (setq top it)))
      (while (and (not (equal dir top))
                  (null (file-attributes (orgstore--journal dir)))
                  (orgstore--part-p dir))
        (setq dir (orgstore--above dir)))
      dir)))

(defun orgstore--foreign-folder (file)
  "Return the folder for whose owner alone FILE isn't served, or nil."
  (when (and file orgstore-directory (not (file-remote-p file)))
    (let* ((true (file-truename file))
           (dir (file-name-directory true)))
      (when-let* (((orgstore--name-p (file-name-nondirectory true)))
                  ((not (orgstore--served-p dir)))
                  (top (car (orgstore--tops dir))))
        (orgstore--foreign dir top)))))

(defun orgstore--file-place (file)
  "Return (ROOT . NAME) where FILE is served, else nil.
A link is of the folder that it leads to, else of that in which it stands."
  (when (and file orgstore-directory (not (file-remote-p file)))
    (let* ((file (expand-file-name file))
           (name (file-name-nondirectory file))
           (true (file-truename file)))
      (cl-flet ((place (dir name)
                  (when-let* ((root (orgstore--root dir))
                              (name (concat (substring dir (length root)) name))
                              ((orgstore--name-p name)))
                    (cons root name))))
        (or (place (file-name-directory true) (file-name-nondirectory true))
            (place (file-truename (file-name-directory file)) name))))))

(defun orgstore--place (&optional buffer)
  "Return (ROOT . NAME) where BUFFER, or this one, visits a served file.
Links are followed each time, since they may lead elsewhere by now."
  (orgstore--file-place (buffer-file-name buffer)))

(defun orgstore--base ()
  "Return the base buffer of the current buffer."
  (or (buffer-base-buffer) (current-buffer)))

(defun orgstore--bytes (file &optional from to)
  "Return the bytes of FILE, of none where it isn't there.
With FROM and TO those between these positions alone."
  (with-temp-buffer
    (set-buffer-multibyte nil)
    (when (file-exists-p file)
      (insert-file-contents-literally file nil from to))
    (buffer-string)))

;;;; The process

(defun orgstore--arguments (root names option)
  "Return the program's arguments, for the files NAMES of the folder ROOT.
OPTION is one more, or nil."
  (let ((names (delete-dups (mapcar (lambda (it)
                                      (string-remove-suffix "_archive" it))
                                    names))))
    (mapcar (lambda (it) (encode-coding-string it 'utf-8-unix t))
            `(,(directory-file-name root) "--whole" ,@(and option (list option))
              ,@(mapcar (lambda (it) (concat "--only=" it)) names)))))

(defun orgstore--await (process seconds)
  "Wait for the end of PROCESS, at most SECONDS, and return its status.
That is a number, a string for a signal, or the symbol timeout.  Neither timers
nor other processes are served meanwhile: one might write a file of the store."
  (let ((deadline (time-add nil seconds)))
    (while (and (process-live-p process) (time-less-p nil deadline))
      (accept-process-output process 0.05 nil 1))
    (pcase (process-status process)
      ('exit (process-exit-status process))
      ('signal (format "signal %d" (process-exit-status process)))
      (_ 'timeout))))

(defun orgstore--run-once (program root names lines &optional option)
  "Run PROGRAM at ROOT for the files NAMES over LINES, bytes, with OPTION.
Return (STATUS . OUTPUT); STATUS is of `orgstore--await', or the symbol quit."
  (let* ((default-directory temporary-file-directory)
         (write-region-inhibit-fsync t)
         (coding-system-for-write 'no-conversion)
         (input (make-temp-file "orgstore-"))
         process status)
    (with-temp-buffer
      (set-buffer-multibyte nil)
      (unwind-protect
          (progn
            (write-region lines nil input nil 'quiet)
            (setq process (make-process
                           :name "orgstore" :buffer (current-buffer) :noquery t
                           :connection-type 'pipe :coding 'no-conversion
                           :sentinel #'ignore :command
                           `("/bin/sh" "-c"
                             "in=$1; shift; exec \"$0\" \"$@\" <\"$in\""
                             ,program ,input
                             ,@(orgstore--arguments root names option)))
                  status (condition-case nil
                             ;; Emacs inhibits it in `post-command-hook'.
                             (let ((inhibit-quit nil))
                               (orgstore--await process orgstore-timeout))
                           (quit 'quit))))
        ;; A killed store loses nothing.  The signal is for its whole group.
        (let ((inhibit-quit t))
          (when (and process (process-live-p process))
            (ignore-errors (kill-process process))
            (orgstore--await process 1))
          (when process
            (while (accept-process-output process 0 nil 1))
            (set-process-buffer process nil))
          (delete-file input)))
      (cons status (buffer-string)))))

;;;; What it needs

(defvar orgstore--checked nil
  "The program that was found to do what is needed: (FILE TIME), or nil.")

(defun orgstore--check-program (program)
  "Signal an error unless PROGRAM does what this package needs.
That is the line `edit', the options `--only' and `--whole', and files in
subfolders; they are tried in a new folder."
  (let ((dir (make-temp-file "orgstore-check-" t))
        (write-region-inhibit-fsync t))
    (unwind-protect
        (let ((run (progn
                     (make-directory (expand-file-name "s" dir))
                     (write-region "* A\n" nil (expand-file-name "s/a.org" dir)
                                   nil 'quiet)
                     (orgstore--run-once program dir '("s/a.org")
                                         "edit\ts/a.org\t2\tA\tB\nsettle\n"))))
          (cond
           ((equal run '(0 . "ok 1\nsafe 1\n")))
           ((or (equal (car run) 2) (string-prefix-p "refused 20" (cdr run)))
            (orgstore--fail "The program %s is older than this package, which \
needs `edit', `--only', `--whole' and subfolders: do ./install anew" program))
           (t (orgstore--fail "The program %s doesn't work: %s" program
                              (orgstore--reason run dir)))))
      (delete-directory dir t))))

(defun orgstore--find-program ()
  "Return the program's file name; signal an error where it can't be used."
  (let* ((file (or (executable-find orgstore-program)
                   (orgstore--fail "There is no program %s: set \
`orgstore-program', do M-x orgstore-setup, or turn `orgstore-global-mode' off"
                                   orgstore-program)))
         (stamp (list file (file-attribute-modification-time
                            (file-attributes (file-truename file))))))
    (unless (equal stamp orgstore--checked)
      (orgstore--check-program file)
      (setq orgstore--checked stamp))
    file))

(defun orgstore--check-no-sync (root)
  "Signal an error where a sync of ROOT is half done."
  (let ((record (expand-file-name "orgstore-sync.org_archive" root)))
    (when (and (file-regular-p record)
               (string-match " \\([0-9]+\\)/\\([0-9]+\\)\n\\'"
                             (orgstore--bytes record 0 4096)))
      (let ((bytes (orgstore--bytes record 0 4096)))
        (unless (equal (match-string 1 bytes) (match-string 2 bytes))
          (orgstore--fail "A sync of %s is half done; M-x orgstore-sync \
finishes it, and until then nothing is saved" (abbreviate-file-name root)))))))

(defvar orgstore--cut-run nil
  "The last step, if the program didn't end it well: (ROOT NAMES COMMAND).")

(defun orgstore--run (root names &optional lines option)
  "Run the program at ROOT for the files NAMES over LINES, bytes, with OPTION.
Return what `orgstore--run-once' does.  Where another store is open on the
folder it is tried for two seconds."
  (when lines (orgstore--check-no-sync root))
  (let ((program (orgstore--find-program)) (tries 20) run)
    (while (progn
             (setq run (orgstore--run-once program root names (or lines "")
                                           option))
             (and (equal (car run) 3)
                  (string-match-p "open: Locked" (cdr run))
                  (> (setq tries (1- tries)) 0)))
      ;; No `sleep-for', which would serve timers.
      (call-process "sleep" nil nil nil "0.1"))
    (when lines
      (setq orgstore--cut-run (and (not (equal (car run) 0))
                                   (list root names this-command))))
    run))

;;;; What went wrong

(defun orgstore--write-problem (root)
  "Return in words why nothing more can be written in ROOT, or nil.
A file of 1 MiB is tried: a quota shows in nothing else."
  (let ((system-messages-locale "C")
        (coding-system-for-write 'no-conversion)
        (write-region-inhibit-fsync nil)
        file)
    (condition-case err
        (unwind-protect
            (progn
              (setq file (make-temp-file (expand-file-name ".orgstore-" root)))
              (write-region (make-string 1048576 0) nil file nil 'quiet)
              nil)
          (when file (delete-file file)))
      (file-error
       (pcase (nth 2 err)
         ((rx "quota") "your disk quota leaves no room: delete something")
         ((rx "space left") "the disk is full: make room")
         (words (format "the folder can't be written: %s" words)))))))

(defun orgstore--device-reason (root)
  "Return in words why the disk of ROOT failed."
  (cond ((not (file-directory-p root)) "the folder isn't there")
        ((not (file-writable-p root)) "the folder can't be written")
        ((< (or (nth 2 (file-system-info root)) 65536) 65536)
         "the disk is full: make room")
        ((orgstore--write-problem root))
        (t "the disk failed, or a file can't be read or written")))

(defun orgstore--escaped (text)
  "Return TEXT without the characters that would act on the display."
  (replace-regexp-in-string
   "[\0-\x1f\x7f\u0080-\u009f\u061c\u200e\u200f\u202a-\u202e\u2066-\u2069]" "?"
   text))

(defun orgstore--decoded (bytes)
  "Return BYTES, which may be anybody's, as text that can be shown."
  (orgstore--escaped (decode-coding-string bytes 'utf-8-unix)))

(defun orgstore--true-name (name root)
  "Return the file that NAME of ROOT leads to, itself where that is a loop."
  (let ((file (expand-file-name name root)))
    (condition-case nil (file-truename file) (error file))))

(defun orgstore--outside-reason (root name)
  "Return in words why NAME of ROOT, a link that leads out, isn't written."
  (format "%s is a link to %s, which is no file of this store"
          (orgstore--decoded name)
          (orgstore--escaped
           (abbreviate-file-name
            (orgstore--true-name (decode-coding-string name 'utf-8-unix)
                                 root)))))

(defun orgstore--reason (run root)
  "Return in words why RUN, of `orgstore--run', at ROOT failed."
  (pcase run
    (`(timeout . ,_)
     (format "the program didn't end within %s s" orgstore-timeout))
    (`(quit . ,_) "the program was stopped")
    (`(,(and (pred stringp) it) . ,_) (format "the program was killed, %s" it))
    (`(,_ . ,(rx "open: Locked")) "another store is open on the folder")
    (`(,_ . ,(rx "open: BadJournal"))
     "the journal of the folder is damaged")
    (`(,_ . ,(rx "open: Linked"))
     (or (orgstore--journal-problem root) "orgstore.journal is no plain file"))
    (`(,_ . ,(rx "open: Inside " (let dir (+ nonl))))
     (format "the folder is part of the store in %s: add that folder to \
`orgstore-directory'" (orgstore--decoded dir)))
    (`(,_ . ,(rx "open: Changed " (let name (+ nonl))))
     (format "another program has changed %s since" (orgstore--decoded name)))
    (`(,_ . ,(rx "open: Outside " (let name (+ nonl))))
     (orgstore--outside-reason root name))
    (`(,_ . ,(rx "open: SameFile " (let name (+ nonl))))
     (format "two names lead to one file (%s): remove one of them"
             (orgstore--decoded name)))
    (`(,_ . ,(rx "open: TooLarge " (let name (+ nonl))))
     (format "%s is past 64 MiB: split it" (orgstore--decoded name)))
    (`(,_ . ,(rx "NotThere")) "a file changed on the disk meanwhile")
    (`(,_ . ,(rx "14 TooLarge")) "the file would be past 64 MiB")
    (`(,_ . ,(rx "OutOfMemory")) "there was no memory for it")
    (`(,_ . ,(rx "Device")) (orgstore--device-reason root))
    (`(,status . ,told)
     (format "the program ended with %s: %s" status (string-trim told)))))

;;;; The journal

(defconst orgstore--greatest-journal
  ;; Of an entry: the lengths, the name, what stands around its patches, where these
  ;; are to go, and the bytes of a whole file.
  (+ 20 (* 512 (+ 30 1008 66 (* 1000 16) 67108864)))
  "How many bytes a journal can have: 512 entries, each as long as can be.")

(defun orgstore--journal (root)
  "Return the file name of the journal of ROOT."
  (expand-file-name "orgstore.journal" root))

(defun orgstore--journal-problem (root)
  "Return in words why the journal of ROOT is none that a store made, or nil.
A pipe or a device would hang Emacs if it was read, or fill its memory."
  (let* ((it (file-attributes (orgstore--journal root)))
         (type (file-attribute-type it))
         (what (cond
                ((null it) nil)
                ((stringp type)
                 (format "a link, to %s" (orgstore--escaped type)))
                (type "a folder")
                ((not (string-prefix-p "-" (file-attribute-modes it)))
                 "a pipe, a socket or a device")
                ((> (file-attribute-size it) orgstore--greatest-journal)
                 "larger than a journal can be"))))
    (and what
         (format "orgstore.journal is %s, and no store made it: see who did, \
and move it away" what))))

(defun orgstore--gate-open-p (root)
  "Whether the journal of ROOT is of a step that was cut short."
  (let ((journal (orgstore--journal root)))
    (and (null (orgstore--journal-problem root))
         (file-readable-p journal)
         (>= (file-attribute-size (file-attributes journal)) 16)
         (equal (orgstore--bytes journal 0 1) "\1"))))

;;;; Folders whose change was cut short

(defvar orgstore--finished nil
  "What was finished after a crash, newest first: (TIME . WORDS).")

(defun orgstore--note-finished (root change)
  "Tell the user that CHANGE in ROOT, which was cut short, is finished."
  (let ((words (format "%s (in %s)" (orgstore--change-text change)
                       (abbreviate-file-name root))))
    (setq orgstore--cut-run nil)
    (push (cons (current-time) words) orgstore--finished)
    (message "Finished after a crash: %s" words)))

(defun orgstore--finish-open (place)
  "Have the step in the folder of PLACE that was cut short be finished."
  (require 'orgstore-recover)
  (let* ((root (car place))
         (change (orgstore--unfinished root))
         (run (orgstore--run root (list (cdr place)))))
    (unless (equal (car run) 0)
      (orgstore--fail "A change in %s was cut short and isn't finished: %s.  \
Don't trust its files before M-x orgstore-recover"
                      (abbreviate-file-name root) (orgstore--reason run root)))
    (orgstore--note-finished root change)))

(defun orgstore--finish (place)
  "Have a step in the folder of PLACE that was cut short be finished.
Return nil, or words on what kept the program from it."
  (let ((problem (orgstore--journal-problem (car place))))
    (cond
     (problem
      (format "The files in %s can't be saved: %s"
              (abbreviate-file-name (car place)) problem))
     ((orgstore--gate-open-p (car place))
      (condition-case err (progn (orgstore--finish-open place) nil)
        (orgstore-error (cadr err)))))))

(defvar orgstore--told-foreign nil
  "Folders of other owners of which the user was told that they aren't served.")

(defun orgstore--tell-foreign (file)
  "Tell the user, once, of the folder for whose owner FILE isn't served."
  (when-let* ((folder (orgstore--foreign-folder file))
              ((not (member folder orgstore--told-foreign))))
    (push folder orgstore--told-foreign)
    (display-warning
     'orgstore
     (format "%s isn't served, since another user owns it (%s).  If you trust \
all that is in it, add it to `orgstore-directory'"
             (abbreviate-file-name folder)
             (file-attribute-user-id (file-attributes folder 'string))))))

(defun orgstore--before-read (&optional file &rest _)
  "Have a step be finished that was cut short in the folder of FILE.
That is nil for the file of this buffer."
  (let* ((file (or file buffer-file-name))
         (place (orgstore--file-place file)))
    (if (null place) (orgstore--tell-foreign file)
      (when-let* ((trouble (orgstore--finish place)))
        (display-warning 'orgstore trouble)))))

(defun orgstore--tell-place ()
  "Name the folder whose store has this buffer's file, if a link leads there."
  (when-let* ((place (orgstore--place))
              (file (concat (car place) (cdr place)))
              ((not (equal (file-name-directory file)
                           (file-truename
                            (file-name-directory buffer-file-name))))))
    (message "%s leads to %s, and is saved by the store there"
             (file-name-nondirectory buffer-file-name)
             (abbreviate-file-name file))))

(defun orgstore--guard-write ()
  "Signal an error where Emacs would write this file while a gate is open.
The change that was cut short writes the file when it is finished.  This comes
after `orgstore--write', and so only if the store doesn't write the file."
  (when-let* ((root (or (car (orgstore--place))
                        (and (orgstore--foreign-folder buffer-file-name)
                             (file-name-directory
                              (file-truename buffer-file-name)))))
              ((or (orgstore--gate-open-p root)
                   (orgstore--journal-problem root))))
    (orgstore--fail "Nothing is saved (%s): %s"
                    (file-name-nondirectory buffer-file-name)
                    (or (orgstore--journal-problem root)
                        (format "a change in %s was cut short, and would be \
written over it.  Do M-x orgstore-recover first"
                                (abbreviate-file-name root))))))

(provide 'orgstore-program)
;;; orgstore-program.el ends here
