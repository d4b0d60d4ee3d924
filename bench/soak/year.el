;;; year.el --- A person's Emacs, as bench/year drives it  -*- lexical-binding: t; -*-

;; SPDX-License-Identifier: MIT OR Apache-2.0

;; This file is not part of GNU Emacs.

;;; Commentary:

;; Emacs reads a form a line, in base64, and evaluates it.  It answers a line "done",
;; or "error" with the message in base64, then a line for each buffer of the store
;; that changed since the last answer, and "end".  Such a line has the file's name in
;; base64, whether the buffer is modified, whether it agrees with the file's time,
;; and the MD5 of its text as it would be written.
;;
;; The environment has the folder in YEAR_NOTES and the program in YEAR_PROGRAM.

;;; Code:

(require 'cl-lib)
(require 'org)
(require 'org-clock)
(require 'org-lint)
(require 'orgstore)

(defvar year-notes (file-name-as-directory (file-truename (getenv "YEAR_NOTES")))
  "The folder of the store.")

(defvar year-now nil "What Org takes for the time.")

(defvar year-told (make-hash-table :test #'equal)
  "What was last told of each buffer.")

(defun year-setup ()
  "Set what a person would have set, and let nothing ask."
  (setq orgstore-directory year-notes
        orgstore-program (getenv "YEAR_PROGRAM")
        user-emacs-directory (expand-file-name "emacs.d/" (getenv "YEAR_ROOM"))
        org-directory year-notes
        org-todo-keywords '((sequence "TODO" "WAIT" "|" "DONE" "CANCELLED"))
        org-use-fast-todo-selection nil
        org-log-done 'time
        org-adapt-indentation nil
        org-clock-persist nil
        org-clock-out-when-done nil
        org-capture-bookmark nil
        bookmark-save-flag nil
        make-backup-files nil
        auto-save-default nil
        inhibit-message t
        enable-local-variables :safe
        coding-system-for-write nil
        large-file-warning-threshold nil)
  (prefer-coding-system 'utf-8-unix)
  ;; Where a file changed on the disk it isn't saved.
  (dolist (it '(y-or-n-p yes-or-no-p))
    (fset it (lambda (prompt &rest _) (not (string-match-p "changed since visited" prompt)))))
  (fset 'ask-user-about-supersession-threat #'ignore)
  (fset 'org-current-time (lambda (&rest _) (or year-now (current-time))))
  (add-to-list 'auto-mode-alist '("\\.org_archive\\'" . org-mode))
  (orgstore-global-mode 1))

;;;; Answers

(defun year-line (&rest words)
  "Write WORDS as a line."
  (princ (concat (string-join words " ") "\n")))

(defun year-base64 (text)
  "Return TEXT in base64."
  (base64-encode-string (encode-coding-string text 'utf-8 t) t))

(defun year-digest ()
  "Return the MD5 of this buffer's text as it would be written."
  (save-restriction
    (widen)
    (md5 (encode-coding-string (buffer-substring-no-properties (point-min) (point-max))
                               buffer-file-coding-system t)
         nil nil 'binary)))

(defun year-tell (buffer name)
  "Tell of BUFFER, of the file NAME, where anything changed."
  (with-current-buffer buffer
    (let* ((told (gethash name year-told))
           (tick (buffer-chars-modified-tick))
           (now (list tick (and (buffer-modified-p) t) (and (verify-visited-file-modtime) t) buffer)))
      (unless (equal now told)
        (puthash name now year-told)
        (year-line "buffer" (year-base64 name) (if (nth 1 now) "1" "0") (if (nth 2 now) "1" "0")
                   (year-digest))))))

(defun year-answer (form)
  "Evaluate FORM and answer."
  (condition-case err
      (progn (eval form t) (year-line "done"))
    ((error quit) (year-line "error" (year-base64 (error-message-string err)))))
  (dolist (buffer (buffer-list))
    (when-let* ((place (orgstore--place buffer)))
      (year-tell buffer (cdr place))))
  (year-line "end"))

(defun year-loop ()
  "Evaluate forms until the input ends."
  (year-setup)
  (let (line)
    (while (setq line (ignore-errors (read-from-minibuffer "")))
      (year-answer (read (decode-coding-string (base64-decode-string line) 'utf-8))))))

;;;; What the person does

(defun year-visit (name)
  "Go to the buffer of the file NAME, which is read again where it changed."
  (switch-to-buffer (find-file-noselect (expand-file-name name year-notes)))
  (unless (or (buffer-modified-p) (verify-visited-file-modtime))
    (revert-buffer t t t))
  (buffer-enable-undo))

(defun year-goto (line)
  "Go to LINE, from 1, of the whole buffer."
  (when (> line (save-restriction (widen) (count-lines (point-min) (point-max))))
    (error "There is no line %d" line))
  (unless (org-with-wide-buffer (goto-char (point-min))
                                (forward-line (1- line))
                                (<= (point) (point-max)))
    (widen))
  (let ((pos (org-with-wide-buffer (goto-char (point-min)) (forward-line (1- line)) (point))))
    (unless (<= (point-min) pos (point-max)) (widen))
    (goto-char pos)))

(defun year-todo (name line state)
  "Give the entry at LINE of the buffer of the file NAME, as it is, this STATE."
  (switch-to-buffer (find-buffer-visiting (expand-file-name name year-notes)))
  (year-goto line)
  (org-todo state))

(defun year-edit (name from to text)
  "In the file NAME put TEXT in place of the lines from FROM to before TO, counted from 0."
  (year-visit name)
  (org-with-wide-buffer
   (goto-char (point-min))
   (forward-line from)
   (unless (bolp) (insert "\n"))
   (delete-region (point) (save-excursion (forward-line (- to from)) (point)))
   (insert text))
  (undo-boundary))

(defun year-step (&rest edits)
  "Do EDITS, lists of the arguments of `year-edit', as one step."
  (orgstore-as-step (lambda () (dolist (it edits) (apply #'year-edit it)))))

(defun year-save (name)
  "Save the buffer of the file NAME."
  (with-current-buffer (find-buffer-visiting (expand-file-name name year-notes)) (save-buffer)))

(defun year-revert (name)
  "Give up the changes of the buffer of the file NAME."
  (with-current-buffer (find-buffer-visiting (expand-file-name name year-notes)) (revert-buffer t t t)))

(defun year-look (name line how)
  "Look at LINE of the file NAME: narrow, fold or widen, as HOW says."
  (year-visit name)
  (year-goto line)
  (pcase how
    ('narrow (org-narrow-to-subtree))
    ('fold (org-overview))
    ('unfold (outline-show-all))
    ('widen (widen))))

(defun year-check-stale (name)
  "Signal an error where the buffer of the file NAME has no older text than its file."
  (when (verify-visited-file-modtime (find-buffer-visiting (expand-file-name name year-notes)))
    (error "The buffer takes its text for that of its file")))

(defun year-lint (names)
  "Signal an error with what `org-lint' finds in the files NAMES."
  (let (found)
    (dolist (name names)
      (with-temp-buffer
        (insert-file-contents (expand-file-name name year-notes))
        (let ((org-inhibit-startup t)) (delay-mode-hooks (org-mode)))
        (dolist (report (org-lint))
          (let ((line (string-to-number (substring-no-properties (aref (cadr report) 0)))))
            (goto-char (point-min))
            (forward-line (1- line))
            (push (format "%s:%d: %s: %s" name line (aref (cadr report) 2)
                          (buffer-substring-no-properties (point) (line-end-position)))
                  found)))))
    (when found (error "%s" (string-join (nreverse found) "\n")))))

(provide 'year)
;;; year.el ends here
