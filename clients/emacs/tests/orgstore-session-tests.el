;;; orgstore-session-tests.el --- Sessions at random beside plain Org  -*- lexical-binding: t; -*-

;; SPDX-License-Identifier: MIT OR Apache-2.0

;; This file is not part of GNU Emacs.

;;; Commentary:

;; A session is some thirty commands at random over forty files in two folders, by
;; plain Org and by the store: in narrowed and indirect buffers, captures, the
;; agenda, with hooks that fail, timers that save, and a second Emacs which writes
;; the same files.  After each command a buffer of the store is what its file is, or
;; is modified.  In the end
;;
;; - both leave the same files, and gave the same messages of errors,
;; - each entry is there once,
;; - undoing all, by Emacs or by `orgstore-undo-last', gives the files of the start.
;;
;; ORGSTORE_SESSIONS says how many sessions there are, ORGSTORE_SESSIONS_FROM which
;; is the first one.

;;; Code:

(require 'orgstore-test-support)
(defvar orgstore-undo-limit)
(declare-function orgstore--command-error "orgstore-step")
(declare-function orgstore-undo-last "orgstore-step")
(setq ost-file (or load-file-name buffer-file-name))

;;;; Numbers

(defvar ost-seed 0 "The state of `ost-random'.")

(defun ost-random (n)
  "Return a number below N, the same in both Emacsen."
  (setq ost-seed (mod (+ (* ost-seed 1103515245) 12345) 2147483648))
  (mod (/ ost-seed 65536) n))

(defun ost-one-of (list)
  "Return one of LIST."
  (nth (ost-random (length list)) list))

;;;; Files

(defconst ost-session-names
  (append (mapcar (lambda (i) (format "n%02d.org" i)) (number-sequence 0 25))
          (mapcar (lambda (i) (format "sub/s%02d.org" i)) (number-sequence 0 13)))
  "The files of a session.")

(defvar ost-entry 0 "The number of the last entry that was made.")

(defun ost-new-entry ()
  "Return the line by which a new entry is known."
  (format "id:K%d" (cl-incf ost-entry)))

(defun ost-session-heading (stars states)
  "Return an entry of so many STARS, with one of STATES or none."
  (concat (make-string stars ?*) " "
          (if (= 0 (ost-random 2)) "" (concat (ost-one-of states) " "))
          (ost-one-of '("Same" "Same" "Pay rent" "Büro" "A [0/0]" "Plan \\t"))
          (if (= 0 (ost-random 4)) " :work:" "") "\n"
          (if (= 0 (ost-random 3)) "SCHEDULED: <2026-06-30 Tue +1w>\n" "")
          (ost-new-entry) "\n"
          (if (= 0 (ost-random 3)) "- [ ] box\nText of it.\n" "")))

(defun ost-session-text (i end)
  "Return the text of the file with the number I; END may have no newline."
  (let ((states (pcase (mod i 4)
                  (0 '("TODO" "WAIT" "DONE")) (1 '("OFFEN" "ÜBRIG")) (_ '("TODO" "DONE")))))
    (concat (pcase (mod i 4)
              (0 "#+TODO: TODO(t) WAIT(w!) | DONE(d!)\n")
              (1 "#+TODO: OFFEN | ÜBRIG\n")
              (2 "")
              (3 "#+ARCHIVE: %s_archive::* Finished\n"))
            "* Box " (ost-new-entry) "\n"
            (mapconcat (lambda (_) (ost-session-heading (1+ (ost-random 3)) states))
                       (make-list (1+ (ost-random 4)) 0) "")
            (if (= 0 (ost-random 8)) end ""))))

(defun ost-session-bytes (name i end)
  "Return the bytes of the file NAME with the number I and perhaps the END."
  (let ((text (ost-session-text i end)))
    (cons name
          (pcase (mod i 7)
            (3 (encode-coding-string text 'utf-8-dos))
            (5 (encode-coding-string (concat "# -*- coding: latin-1 -*-\n" text)
                                     'iso-latin-1-unix))
            (_ (encode-coding-string text 'utf-8-unix))))))

(defun ost-session-files (number)
  "Return the files of the session NUMBER, and set the seed."
  (setq ost-seed (* 77 (1+ number))
        ost-entry 0)
  (let ((i -1))
    (mapcar (lambda (name)
              (ost-session-bytes name (setq i (1+ i))
                                 (if (ost-session-unended number) "* Last of it"
                                   "* Last of it\n")))
            ost-session-names)))

(defun ost-session-kind (number)
  "Return what comes in the session NUMBER, or how it is undone, or nil."
  (pcase (mod number 5) (0 'second) ((or 1 2) 'undo) (3 'undo-last)))

(defun ost-session-unended (number)
  "Whether files of the session NUMBER may end without a newline.
That which a save adds isn't taken back, and a save in the middle of a command
adds it there, where a step does so at its end."
  (memq (mod number 10) '(0 4)))

;;;; A second Emacs

(defvar ost-second nil "The process of the second Emacs, or nil.")

(defun ost-serve ()
  "Be the second Emacs: do each form that is read, and say so."
  (let ((org-inhibit-startup t) (create-lockfiles nil) (make-backup-files nil)
        (org-archive-subtree-save-file-p t)
        (inhibit-message t) line)
    ;; The folder is the first one's.
    (setq kill-emacs-hook nil)
    (unless ost-plain
      (setq orgstore-directory ost-dir orgstore-program (ost-program-file))
      (orgstore-global-mode 1))
    (while (setq line (ignore-errors (read-from-minibuffer "")))
      (ost-close)
      (condition-case err
          (progn (eval (car (read-from-string line)) t)
                 (org-save-all-org-buffers))
        (error (princ (format "error %S\n" err))))
      (princ "done\n"))))

(defun ost-in-second (form)
  "Have FORM be done in the second Emacs, and revert what it changed."
  (unless (process-live-p ost-second)
    (let ((process-environment
           (append (list (concat "ORGSTORE_TEST_DIR=" ost-base)
                         (if ost-plain "ORGSTORE_PLAIN=second" "ORGSTORE_PLAIN"))
                   process-environment))
          (library (locate-library "orgstore")))
      (setq ost-second
            (make-process :name "second" :buffer (generate-new-buffer " second") :noquery t
                          :connection-type 'pipe
                          :command `(,(or (getenv "ORGSTORE_EMACS")
                                          (expand-file-name invocation-name invocation-directory))
                                     "-Q" "--batch"
                                     ,@(and library (list "-L" (file-name-directory library)))
                                     "-L" ,(file-name-directory ost-file)
                                     "-l" ,ost-file "-f" "ost-serve")))))
  (with-current-buffer (process-buffer ost-second) (erase-buffer))
  (process-send-string ost-second (concat (prin1-to-string form) "\n"))
  (while (not (with-current-buffer (process-buffer ost-second)
                (string-search "done\n" (buffer-string))))
    (unless (process-live-p ost-second)
      (error "The second Emacs ended: %s"
             (with-current-buffer (process-buffer ost-second) (buffer-string))))
    (accept-process-output ost-second 0.1))
  (dolist (it (ost-served))
    (with-current-buffer it
      (unless (verify-visited-file-modtime)
        ;; Files of one moment and one size look the same to Emacs.
        (revert-buffer t t)))))

(defun ost-second-refile (from title to)
  "Refile the first TITLE of the file FROM below the first heading of TO."
  (ost-open from)
  (re-search-forward (concat "^\\*+ .*" (regexp-quote title)))
  (org-refile nil nil (list "Box" (ost-path to) nil
                            (with-current-buffer (find-file-noselect (ost-path to))
                              (goto-char (point-min))
                              (re-search-forward "^\\*+ Box")
                              (line-beginning-position)))))

;;;; Commands

(defvar ost-wrong nil "What was wrong in the session, newest first.")

(defvar ost-fails nil "The hook that fails in this command, or nil.")

(defvar ost-timers nil "Whether timers save in this session.")

(defvar ost-killed nil "The files whose buffers Org killed, with what they could undo.")

(defvar ost-failed nil "Whether a hook failed, which may leave an entry twice.")

(defun ost-failing (hook)
  "Return a function for HOOK that fails where it is to."
  (lambda (&rest _)
    (when (and (eq ost-fails hook) (or buffer-file-name (buffer-base-buffer)))
      (setq ost-fails nil ost-failed t)
      (if (eq hook 'org-archive-hook) (signal 'quit nil)
        (error "A hook failed: %s" hook)))))

(defun ost-say (format &rest args)
  "Write a line of FORMAT with ARGS, which is compared with plain Org's."
  (let ((coding-system-for-write 'utf-8-unix))
    (write-region (concat (apply #'format format args) "\n") nil
                  (expand-file-name "said" ost-beside) t 'quiet)))

(defun ost-judge (what)
  "Look whether each buffer is its file, or modified, after the command WHAT."
  (dolist (it (ost-served))
    (with-current-buffer it
      (unless (or (buffer-modified-p)
                  (string= (ost-bytes buffer-file-name)
                           (encode-coding-string
                            (save-restriction (widen) (buffer-string))
                            buffer-file-coding-system)))
        (push (list what 'differs-from-file (buffer-name)) ost-wrong)))))

(defun ost-do (what function)
  "Do FUNCTION as the command WHAT."
  (ost-say "%s in %s: %s" what (buffer-name)
           (buffer-substring-no-properties (line-beginning-position) (line-end-position)))
  (unless ost-plain (orgstore--before-command))
  (condition-case err
      ;; Emacs passes over errors of `before-save-hook', but not for a debugger.
      (let (debug-on-error) (funcall function))
    ((error quit)
     (unless ost-plain (orgstore--command-error))
     ;; Where plain Org saves after the command, a save fails there.
     (unless (string-match-p "hook failed: \\(before\\|after\\)-save-hook"
                             (error-message-string err))
       (ost-say "%s: %s" what (error-message-string err)))))
  (unless ost-plain (orgstore--after-command))
  (condition-case err (ost-logged)
    (error (ost-say "%s, note: %s" what (error-message-string err))))
  (when (and ost-plain (not (ost-captures)))
    (let (debug-on-error)
      (ignore-errors (org-save-all-org-buffers))))
  (setq ost-fails nil)
  (unless ost-plain (ost-judge what)))

(defun ost-ids-of (text)
  "Return the lines in TEXT by which entries are known."
  (let (found (at 0))
    (while (string-match "^\\(?:\\*+ Box \\)?\\(id:K[0-9]+\\)\r?$" text at)
      (push (match-string 1 text) found)
      (setq at (match-end 0)))
    found))

(defun ost-show (name)
  "Show the file NAME, as it is narrowed."
  (set-buffer (find-file-noselect (ost-path name)))
  (switch-to-buffer (current-buffer))
  (buffer-enable-undo))

(defun ost-some-entry (&optional name)
  "Go to a heading, of the file NAME or of any, that isn't its Box.
Return nil where there is none."
  (ost-show (or name (ost-one-of ost-session-names)))
  (let (found)
    (dotimes (i 2)
      (unless found
        (when (= i 1) (widen))
        (goto-char (point-min))
        (while (re-search-forward "^\\*+ \\(?:Box\\)?" nil t)
          (unless (string-suffix-p "Box" (match-string 0))
            (push (line-beginning-position) found)))))
    (when found (goto-char (ost-one-of found)))))

(defun ost-box (name)
  "Return the Box of the file NAME as `org-refile' wants it."
  (with-current-buffer (find-file-noselect (ost-path name))
    (org-with-wide-buffer
     (goto-char (point-min))
     (and (re-search-forward "^\\*+ Box" nil t)
          (list "Box" (ost-path name) nil (line-beginning-position))))))

(defun ost-some-box ()
  "Return the Box of any file."
  (let (found)
    (while (not (setq found (ost-box (ost-one-of ost-session-names)))))
    found))

(defun ost-state ()
  "Return a state of the file of this buffer."
  (ost-one-of (append org-todo-keywords-1 '(""))))

(defun ost-do-here (what function)
  "At an entry do FUNCTION as WHAT."
  (when (ost-some-entry) (ost-do what function)))

(defun ost-select-two ()
  "Select this entry and the next one."
  (transient-mark-mode 1)
  (push-mark (point) t t)
  (when (outline-next-heading) (end-of-line))
  (activate-mark))

(defun ost-do-refile (what &optional region)
  "Refile an entry, or a REGION, as WHAT."
  (when (ost-some-entry)
    (let ((from (point-marker)) (to (ost-some-box)))
      (set-buffer (marker-buffer from))
      (goto-char from)
      (when region (ost-select-two))
      (ost-do what (lambda () (org-refile nil nil to)))
      (dolist (it (buffer-list)) (with-current-buffer it (setq mark-active nil))))))

(defun ost-do-capture (key)
  "Capture by the template KEY; finish it, or give it up."
  (let ((end (ost-random 4)))
    (ost-show (ost-one-of ost-session-names))
    (ost-do (format "capture %s" key) (lambda () (org-capture nil key)))
    (when (bound-and-true-p org-capture-mode)
      (insert (format "Täg %d" (ost-random 5)))
      (when (= end 1)
        (ost-do 'schedule-in-capture (lambda () (org-schedule nil "2026-07-20"))))
      (ost-do 'finalize (if (= end 0) #'org-capture-kill #'org-capture-finalize))
      (when (bound-and-true-p org-capture-mode)
        (ost-do 'finalize-again #'org-capture-finalize)))))

(defun ost-do-agenda ()
  "Do something in the agenda."
  (let ((org-agenda-files (mapcar #'ost-path (list (ost-one-of ost-session-names) "n00.org" "sub/s02.org")))
        (org-agenda-window-setup 'current-window)
        lines)
    (ost-do 'agenda (lambda () (org-todo-list)))
    (goto-char (point-min))
    (while (not (eobp))
      (when (org-get-at-bol 'org-hd-marker) (push (point) lines))
      (forward-line))
    (when lines
      (goto-char (ost-one-of lines))
      (pcase (ost-random 6)
        (0 (ost-do 'agenda-todo (lambda () (org-agenda-todo 'done))))
        (1 (ost-do 'agenda-archive #'org-agenda-archive))
        (2 (ost-do 'agenda-priority #'org-agenda-priority-up))
        (3 (let ((box (ost-some-box))) (ost-do 'agenda-refile (lambda () (org-agenda-refile nil box)))))
        (4 (ost-do 'agenda-later (lambda () (org-agenda-schedule nil "2026-07-11"))))
        (5 (org-agenda-bulk-mark)
           (forward-line)
           (when (org-get-at-bol 'org-hd-marker) (org-agenda-bulk-mark))
           (cl-letf (((symbol-function 'read-char-exclusive) (lambda (&rest _) ?$)))
             (ost-do 'bulk #'org-agenda-bulk-action)))))))

(defun ost-do-second ()
  "Have the second Emacs refile an entry."
  (ost-do 'save-all #'org-save-all-org-buffers)
  (let ((from (ost-one-of ost-session-names)) (to (ost-one-of ost-session-names)))
    (unless (equal from to)
      (ost-say "second Emacs: %s to %s" from to)
      (ost-in-second `(ost-second-refile ,from "Same" ,to)))))

(defun ost-do-indirect ()
  "Do something in an indirect buffer."
  (when (ost-some-entry)
    (org-tree-to-indirect-buffer)
    (set-buffer org-last-indirect-buffer)
    (goto-char (point-min))
    (ost-do 'indirect (lambda () (org-todo (ost-state))))
    (goto-char (point-max))
    (unless (bolp) (insert "\n"))
    (insert "typed there\n")
    (ost-do 'indirect-save #'save-buffer)
    (when (= 0 (ost-random 2)) (kill-buffer))))

(defun ost-do-cut ()
  "Cut an entry, and paste it into another file."
  (when (ost-some-entry)
    (ost-do 'cut #'org-cut-subtree)
    (when (= 0 (ost-random 2)) (ost-do 'save-cut #'save-buffer))
    (ost-show (ost-one-of ost-session-names))
    (widen)
    (goto-char (point-max))
    (unless (bolp) (insert "\n"))
    (ost-do 'paste #'org-paste-subtree)
    (when (= 0 (ost-random 2)) (ost-do 'save-paste #'save-buffer))))

(defun ost-any-command (kind)
  "Do a command at random, in a session of this KIND."
  (setq ost-fails
        ;; What failed is no step that could be taken back.
        (and (= 0 (ost-random 6))
             (not (eq kind 'undo-last))
             (ost-one-of '(org-after-todo-state-change-hook org-after-refile-insert-hook org-archive-hook
                           org-clock-out-hook org-capture-before-finalize-hook))))
  (when (and (= 0 (ost-random 5)) ost-timers)
    ;; A timer that saves; it runs in a command, where a hook waits.
    (run-at-time 0 nil (lambda ()
                            (let (debug-on-error)
                              (ignore-errors (org-save-all-org-buffers))))))
  (pcase (ost-random (if (eq kind 'second) 25 24))
    ((or 0 1 2) (ost-do-refile 'refile))
    (3 (ost-do-refile 'refile-region t))
    ((or 4 5) (ost-do-here 'archive #'org-archive-subtree))
    (6 (ost-do-here 'archive-sibling #'org-archive-to-archive-sibling))
    ((or 7 8) (ost-do-here 'todo (lambda () (org-todo (ost-state)))))
    (9 (ost-do-here 'done (lambda () (org-todo 'done))))
    (10 (ost-do-here 'schedule (lambda () (org-schedule nil (format "2026-07-%02d" (1+ (ost-random 28)))))))
    (11 (ost-do-here 'tags #'org-toggle-archive-tag))
    (12 (ost-do-here 'property (lambda () (org-set-property "P" "v"))))
    (13 (ost-do-here 'clock-in #'org-clock-in))
    (14 (when (org-clocking-p) (ost-do 'clock-out #'org-clock-out)))
    ((or 15 16) (ost-do-capture (ost-one-of '("e" "d" "c" "i" "l"))))
    ((or 17 18) (ost-do-agenda))
    (19 (when (ost-some-entry) (org-narrow-to-subtree)))
    (20 (ost-do-indirect))
    (21 (when (ost-some-entry)
          (end-of-line)
          (insert "\ntyped ü " (number-to-string (ost-random 99)))
          ;; Plain Org saves it with the next command, and adds the newline then.
          (when (or (eq kind 'undo-last) (not ost-timers)) (ost-do 'save #'save-buffer))))
    ;; Within a command of plain Org, a save that fails cuts it in two; a step is whole.
    (22 (setq ost-fails (ost-one-of '(nil nil before-save-hook after-save-hook)))
        (ost-do 'save-all #'org-save-all-org-buffers))
    (23 (ost-do-cut))
    (24 (ost-do-second))))

;;;; Sessions

(defun ost-session-templates ()
  "Set templates for captures."
  (let ((id (lambda () (format "id:K%d" (cl-incf ost-entry)))))
    (fset 'ost-capture-id id)
    (setq org-capture-templates
          `(("e" "" entry (file+headline ,(ost-path "n00.org") "Inbox") "* TODO %?\n%U\n%(ost-capture-id)")
            ("d" "" entry (file+olp+datetree ,(ost-path "sub/s01.org")) "* %?\n%(ost-capture-id)")
            ("c" "" entry (file ,(ost-path "n03.org")) "* %?\n%(ost-capture-id)" :clock-in t :clock-resume t)
            ("i" "" item (file+headline ,(ost-path "n05.org") "List") "%?")
            ("l" "" entry (file ,(ost-path "sub/s03.org")) "* %?\n%(ost-capture-id)" :prepend t)))))

(defun ost-undo-all ()
  "Undo all that was done in this buffer."
  (widen)
  (let ((list buffer-undo-list) (inhibit-read-only t))
    (while list (setq list (primitive-undo 1 list)))))

(defun ost-session-ends (files kind)
  "Look at the end of a session over FILES, which is undone by KIND."
  (let ((tree (ost-tree ost-dir)) (undone t) ids)
    (pcase-dolist (`(,_ . ,bytes) tree)
      (setq ids (append (ost-ids-of bytes) ids)))
    (dolist (it (seq-uniq ids))
      (unless (or ost-failed
                  (= 1 (seq-count (lambda (other) (equal it other)) ids)))
        (push (list 'more-than-once it) ost-wrong)))
    (pcase-dolist (`(,_ . ,bytes) files)
      (dolist (it (ost-ids-of bytes))
        (unless (member it ids) (push (list 'lost it) ost-wrong))))
    (unless ost-plain
      (pcase kind
        ('undo
         (dolist (it (ost-served))
           (with-current-buffer it
             (condition-case err (ost-undo-all)
               ;; Org 9.7's own: it can't undo what it archived.
               (error (if (version< (org-version) "9.7") (signal (car err) (cdr err))
                        (setq undone nil))))))
         (let (debug-on-error) (org-save-all-org-buffers)))
        ('undo-last
         (condition-case nil (while t (orgstore-undo-last))
           (user-error nil))))
      (when (memq kind '(undo undo-last))
        (when undone
          (pcase-dolist (`(,name ,got ,_) (ost-differ (list (ost-tree ost-dir)) (list files)))
            (unless (and (eq kind 'undo) (member (ost-path name) ost-killed))
              (push (list kind name got) ost-wrong))))
        ;; These are compared with plain Org's.
        (ost-close)
        (pcase-dolist (`(,name . ,bytes) tree) (ost-write name bytes))))))

(defun ost-session (number files)
  "Do the session NUMBER over FILES."
  (setq ost-wrong nil ost-fails nil ost-failed nil ost-killed nil
        ost-timers (not (ost-session-unended number)))
  (ost-session-templates)
  (let* ((kind (ost-session-kind number))
         (wait (lambda (&rest _) (sleep-for 0.001)))
         (undo-limit 100000000) (undo-strong-limit 100000000) (undo-outer-limit 1000000000)
         (org-use-fast-todo-selection nil)
         (org-log-into-drawer (= 0 (mod number 2)))
         (org-log-refile (and (= 0 (mod number 3)) 'time))
         (org-log-done (and (= 0 (mod number 4)) 'time))
         (org-archive-location (if (= 0 (mod number 7)) "all.org::datetree/" "%s_archive::"))
         (org-loop-over-headlines-in-active-region t)
         (org-archive-subtree-save-file-p t)
         (org-archive-file-header-format nil)
         (org-agenda-sticky nil)
         (org-clock-persist nil)
         (org-clock-auto-clock-resolution nil)
         (org-show-notification-handler #'ignore)
         (org-after-todo-state-change-hook (list wait (ost-failing 'org-after-todo-state-change-hook)))
         (org-after-refile-insert-hook (list wait (ost-failing 'org-after-refile-insert-hook)))
         (org-archive-hook (list (ost-failing 'org-archive-hook)))
         (org-clock-out-hook (list (ost-failing 'org-clock-out-hook)))
         (org-capture-before-finalize-hook (list (ost-failing 'org-capture-before-finalize-hook)))
         ;; Org 9.7 kills the buffer that was made for a capture which is given up.
         (kill-buffer-hook (list (lambda () (when buffer-file-name (push buffer-file-name ost-killed)))))
         (before-save-hook (list (ost-failing 'before-save-hook)))
         (after-save-hook (list (ost-failing 'after-save-hook)))
         (was-undo-limit (bound-and-true-p orgstore-undo-limit)))
    (unless ost-plain (setq orgstore-undo-limit 1000))
    (unwind-protect
        (cl-letf (((symbol-function 'y-or-n-p)
                   (lambda (prompt &rest _) (ost-say "asked: %s" prompt) t))
                  ((symbol-function 'yes-or-no-p)
                   (lambda (prompt &rest _) (ost-say "asked: %s" prompt) t)))
          (ost-show "n00.org")
          (dotimes (_ 30) (ost-any-command kind))
          (setq ost-fails nil)
          (when (ost-captures)
            (dolist (it (buffer-list))
              (when (and (buffer-live-p it) (buffer-local-value 'org-capture-mode it))
                (with-current-buffer it (ost-do 'finalize #'org-capture-finalize)))))
          (org-save-all-org-buffers)
          (should-not (ost-modified))
          (ost-session-ends files kind))
      (unless ost-plain (setq orgstore-undo-limit was-undo-limit))
      (when (process-live-p ost-second) (delete-process ost-second)))
    (unless ost-plain (should-not ost-wrong))))

(let ((from (string-to-number (or (getenv "ORGSTORE_SESSIONS_FROM") "0"))))
  (dotimes (i (string-to-number (or (getenv "ORGSTORE_SESSIONS") "8")))
    (let* ((number (+ from i))
           (files (ost-session-files number))
           (seed ost-seed) (entry ost-entry))
      (ost-define (intern (format "session-%d" number)) files
                  (lambda ()
                    (setq ost-seed seed ost-entry entry)
                    (ost-session number files))))))

(provide 'orgstore-session-tests)
;;; orgstore-session-tests.el ends here
