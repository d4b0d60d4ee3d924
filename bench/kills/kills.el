;;; kills.el --- Archives or refiles an entry with Org's own commands  -*- lexical-binding: t; -*-

;; SPDX-License-Identifier: MIT OR Apache-2.0

;; This file is not part of GNU Emacs.

;;; Commentary:

;; emacs -Q --batch -l kills.el -f kills-run CASE, in the folder of the notes.
;;
;; CASE is one of the names in `kills-cases'.  Where it begins with "later ",
;; two entries went the same way before, so that each file has been saved in this
;; session, and has its backup.  The file that KILLS_FROM names is deleted where
;; the command itself begins.  Nothing of orgstore is loaded.

;;; Code:

(require 'org)
(require 'org-archive)
(require 'org-refile)
(require 'subr-x)

;; None of the modules has to do with archiving, and loading them takes time.
(setq org-modules nil)

;; As for a user's notes: of files below /tmp Emacs makes none.
(setq backup-enable-predicate (lambda (_file) t))

(defun kills-find (mark)
  "Visit notes.org, and go to the heading of the entry with this MARK."
  (set-buffer (find-file-noselect "notes.org"))
  (goto-char (point-min))
  (re-search-forward (concat "^\\*+ Note " mark "$"))
  (beginning-of-line))

(defun kills-archive (mark)
  "Archive MARK as Org does by default, and save the buffer."
  (kills-find mark)
  (org-archive-subtree)
  (save-buffer))

(defun kills-archive-together (mark)
  "Archive MARK, and save both files afterwards."
  (kills-find mark)
  (let ((org-archive-subtree-save-file-p nil))
    (org-archive-subtree))
  (save-some-buffers t))

(defun kills-refile (mark)
  "Refile MARK to another file, and save all."
  (let ((target (with-current-buffer (find-file-noselect "work.org")
                  (goto-char (point-min))
                  (point))))
    (kills-find mark)
    (org-refile nil nil (list "Notes" (expand-file-name "work.org") nil target))
    (org-save-all-org-buffers)))

(defconst kills-cases
  '(("archive" . kills-archive)
    ("archive, saved together" . kills-archive-together)
    ("refile" . kills-refile))
  "What moves one entry, by its name.")

(defun kills-run ()
  "Do the case that the command line names."
  (let* ((name (pop command-line-args-left))
         (later (string-prefix-p "later " name))
         (command (cdr (assoc (string-remove-prefix "later " name) kills-cases))))
    (when later
      (funcall command "m00001")
      (funcall command "m00002"))
    (delete-file (getenv "KILLS_FROM"))
    (funcall command "m00003")))

(provide 'kills)
;;; kills.el ends here
