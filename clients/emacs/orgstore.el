;;; orgstore.el --- Org's changes as crash-safe steps  -*- lexical-binding: t; -*-

;; Author: The orgstore developers
;; Version: 0.3.0
;; Package-Requires: ((emacs "28.1"))
;; Keywords: outlines, files, calendar
;; URL: https://zagwolem.example/orgstore
;; SPDX-License-Identifier: MIT OR Apache-2.0

;;; Commentary:

;; `orgstore' is a program that changes files of a folder in one step which no
;; crash can tear.  This package has Emacs save Org files by it.
;;
;;   (setq orgstore-directory "~/notes" orgstore-program "/path/to/orgstore")
;;   (orgstore-global-mode 1)
;;
;; Org does each of its commands in the buffers, as ever.  What is new is how
;; the buffers of served files get to the disk:
;;
;; - A save hands the difference between buffer and file to the program.
;; - A command on entries, as `org-refile', is a step: the saves within it are put
;;   off, and at its end all served buffers that it changed are saved together.
;;   Where Lisp calls such commands in another one, this is the step.
;; - Buffers that belong together, since a step into them failed or text was cut
;;   in one and pasted into the other, are bound: none is saved without the others.
;;
;; In Lisp, `orgstore-as-step' makes a step of any function.

;;; Code:

(require 'orgstore-program)
(require 'orgstore-save)
(require 'orgstore-step)

(autoload 'orgstore-setup "orgstore-setup" nil t)
(autoload 'orgstore-status "orgstore-setup" nil t)
(autoload 'orgstore-archive-done "orgstore-archive" nil t)
(autoload 'orgstore-recover "orgstore-recover" nil t)
(autoload 'orgstore-sync "orgstore-sync" nil t)
(autoload 'orgstore-conflicts "orgstore-sync" nil t)
(autoload 'orgstore-keep-ours "orgstore-sync" nil t)
(autoload 'orgstore-take-theirs "orgstore-sync" nil t)

;;;; Commands that are steps

(defun orgstore--advise-commands (commands on)
  "With ON make each of COMMANDS a step, else make it what it was."
  (dolist (it commands)
    (if on (advice-add it :around #'orgstore--as-command)
      (advice-remove it #'orgstore--as-command))))

(defcustom orgstore-commands
  '(org-todo org-todo-yesterday org-shiftright org-shiftleft
    org-shiftcontrolright org-shiftcontrolleft org-priority org-priority-up
    org-priority-down org-set-tags-command org-toggle-archive-tag
    org-set-property org-delete-property org-delete-property-globally
    org-set-effort org-inc-effort org-clock-modify-effort-estimate
    org-toggle-ordered-property org-id-get-create org-schedule org-deadline org-add-note
    org-store-log-note org-refile org-refile-reverse org-refile-copy
    org-archive-subtree org-archive-to-archive-sibling org-archive-set-tag
    org-archive-subtree-default org-archive-subtree-default-with-confirmation
    org-archive-all-done org-archive-all-old org-attach org-attach-attach
    org-attach-buffer org-attach-new org-attach-sync org-attach-delete-all
    org-clock-in org-clock-in-last
    org-clock-out org-clock-cancel org-resolve-clocks org-capture-finalize
    org-capture-kill org-capture-refile org-columns-edit-value
    org-columns-next-allowed-value org-columns-previous-allowed-value
    org-agenda-todo org-agenda-todo-nextset org-agenda-todo-previousset
    org-agenda-todo-yesterday org-agenda-add-note org-agenda-archive
    org-agenda-archive-default org-agenda-archive-default-with-confirmation
    org-agenda-archive-to-archive-sibling org-agenda-toggle-archive-tag
    org-agenda-refile org-agenda-kill org-agenda-clock-in org-agenda-clock-out
    org-agenda-clock-cancel org-agenda-schedule org-agenda-deadline
    org-agenda-date-later org-agenda-date-earlier org-agenda-date-prompt
    org-agenda-do-date-later org-agenda-do-date-earlier org-agenda-set-tags
    org-agenda-set-property org-agenda-set-effort org-agenda-priority
    org-agenda-priority-up org-agenda-priority-down org-agenda-diary-entry
    org-agenda-bulk-action org-agenda-undo)
  "The commands that are steps: what they change is saved at their end."
  :type '(repeat function)
  :group 'orgstore
  :set (lambda (symbol value)
         (let ((on (bound-and-true-p orgstore-global-mode)))
           (when (and on (boundp symbol))
             (orgstore--advise-commands (default-value symbol) nil))
           (set-default symbol value)
           (when on (orgstore--advise-commands value t)))))

;;;; Keys on the marks of a merge

(defun orgstore--on-mark (command)
  "Return COMMAND where this line of an Org file is a mark of a merge, else nil."
  (and (derived-mode-p 'org-mode)
       (save-excursion
         (forward-line 0)
         (looking-at-p ": CONFLICT:"))
       command))

(defconst orgstore--mark-map
  (let ((map (make-sparse-keymap)))
    (define-key map (kbd "C-c <") '(menu-item "Keep ours" orgstore-keep-ours
                                              :filter orgstore--on-mark))
    (define-key map (kbd "C-c >") '(menu-item "Take theirs" orgstore-take-theirs
                                              :filter orgstore--on-mark))
    map)
  "Keys of `orgstore-global-mode', each in the line of a mark alone.")

;;;; The mode

(defun orgstore--before-ids (&optional files &rest _)
  "Have the folders of FILES, and of those with IDs, be whole.
`org-id-update-id-locations' reads files by itself."
  (dolist (it (delete-dups (mapcar #'file-name-directory
                                   (append files
                                           (bound-and-true-p org-id-files)))))
    (orgstore--before-read (expand-file-name "a.org" it))))

(defconst orgstore--advice
  '((basic-save-buffer :around orgstore--save)
    (save-some-buffers :around orgstore--save-some)
    (find-file-noselect :before orgstore--before-read)
    (org-id-update-id-locations :before orgstore--before-ids)
    (orgstore-recover :after orgstore--settle-all)
    (org-capture :around orgstore--as-capture))
  "The advice of `orgstore-global-mode' beside that of `orgstore-commands'.")

(defconst orgstore--hooks
  '((write-file-functions orgstore--write 100)
    (write-file-functions orgstore--guard-write 100)
    (find-file-hook orgstore--note-visit 100)
    (find-file-hook orgstore--tell-place 100)
    (before-revert-hook orgstore--before-read -100)
    (after-revert-hook orgstore--note-visit 100)
    (kill-buffer-query-functions orgstore--kill-query 100)
    (pre-command-hook orgstore--before-command 0)
    (post-command-hook orgstore--after-command 0)
    (org-capture-after-finalize-hook orgstore--captured -100))
  "The hooks of `orgstore-global-mode'.")

(defun orgstore--turn (on)
  "With ON have Emacs save served files by the store, else by itself."
  (pcase-dolist (`(,function ,how ,advice) orgstore--advice)
    (if on (advice-add function how advice)
      (advice-remove function advice)))
  (pcase-dolist (`(,hook ,function ,depth) orgstore--hooks)
    (if on (add-hook hook function depth)
      (remove-hook hook function)))
  (if on (add-function :before command-error-function
                       #'orgstore--command-error)
    (remove-function command-error-function #'orgstore--command-error))
  (orgstore--advise-commands orgstore-commands on))

;;;###autoload
(define-minor-mode orgstore-global-mode
  "Save the Org files in `orgstore-directory' by crash-safe steps."
  :global t
  :group 'orgstore
  :keymap orgstore--mark-map
  (orgstore--turn orgstore-global-mode)
  (if (not orgstore-global-mode)
      (mapc #'orgstore--end-watch (buffer-list))
    (dolist (it (ensure-list orgstore-directory))
      (orgstore--before-read (expand-file-name "a.org" it)))
    (dolist (it (buffer-list))
      (with-current-buffer it
        (when buffer-file-name (orgstore--note-visit))))
    (unless (executable-find orgstore-program)
      (display-warning 'orgstore (format "There is no program %s: set \
`orgstore-program', or do M-x orgstore-setup" orgstore-program)))))

(provide 'orgstore)
;;; orgstore.el ends here
