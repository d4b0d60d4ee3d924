;;; orgstore-setup.el --- Set up, and show status  -*- lexical-binding: t; -*-
;; SPDX-License-Identifier: MIT OR Apache-2.0

;;; Commentary:

;; `orgstore-setup' asks for the folder, tries the program, and writes the lines
;; for the init file.  `orgstore-status' shows the folders, their files and the last
;; steps.

;;; Code:

(require 'seq)
(require 'orgstore-program)
(require 'orgstore-save)

(declare-function orgstore-global-mode "orgstore" (&optional arg))

;;;; What is wrong

(defun orgstore--folder-problem (dir)
  "Return in one line what is wrong with DIR as a folder to serve, or nil."
  (let ((name (abbreviate-file-name dir)))
    (cond
     ((file-remote-p dir)
      (format "%s is remote, and local folders alone are served" name))
     ((not (file-directory-p dir)) (format "%s isn't a folder" name))
     ((not (file-writable-p dir))
      (format "%s can't be written, and its journal stands there" name)))))

(defun orgstore--program-problem ()
  "Return in one line what is wrong with the program, or nil."
  (condition-case err
      (progn (orgstore--find-program) nil)
    (orgstore-error (cadr err))))

;;;; Set up

(defconst orgstore--lisp (file-name-directory (or load-file-name
                                                  buffer-file-name))
  "The folder of this package.")

(defun orgstore--look-for-program ()
  "Return the program's file name, or nil.
It is looked for as `orgstore-program', and where it is installed."
  (seq-some #'executable-find
            (list orgstore-program
                  ;; Where ./install puts it, beside this file.
                  (expand-file-name "../../../../bin/orgstore"
                                    orgstore--lisp)
                  (expand-file-name "~/.local/bin/orgstore")
                  "/usr/local/bin/orgstore")))

(defun orgstore--init-lines (program dir)
  "Return the lines for the init file that serve DIR by PROGRAM."
  (concat ";; orgstore: Org's changes as crash-safe steps.\n"
          (format "(add-to-list 'load-path %S)\n"
                  (abbreviate-file-name (directory-file-name orgstore--lisp)))
          (format "(require 'orgstore)\n(setq orgstore-directory %S\n"
                  (abbreviate-file-name dir))
          (format "      orgstore-program %S)\n" (abbreviate-file-name program))
          "(orgstore-global-mode 1)\n"))

(defun orgstore--write-init (lines)
  "Offer to put LINES into the init file.  Return its name, or nil.
They come in the place of those of an earlier set-up, else to the end."
  (let ((file (or user-init-file
                  (locate-user-emacs-file "init.el" ".emacs"))))
    (when (y-or-n-p (format "Add these lines to %s? "
                            (abbreviate-file-name file)))
      (with-current-buffer (find-file-noselect file)
        (save-excursion
          (goto-char (point-min))
          (if (re-search-forward
               "^;; orgstore: .*\n\\(?:.+\n\\)*?(orgstore-global-mode 1)\n"
               nil t)
              (replace-match lines t t)
            (goto-char (point-max))
            (unless (bolp) (insert "\n"))
            (unless (bobp) (insert "\n"))
            (insert lines)))
        (save-buffer))
      file)))

;;;; What isn't synced

(defconst orgstore--not-synced '("orgstore.journal" "orgstore-sync.org_archive")
  "The files of a folder that no other machine is to have.")

(defun orgstore--ignoring (dir)
  "Return the files that say what of DIR isn't synced, by git and by Syncthing."
  (let ((top (locate-dominating-file dir ".stfolder")))
    (delq nil (list (and (locate-dominating-file dir ".git")
                         (expand-file-name ".gitignore" dir))
                    (and top (expand-file-name ".stignore" top))))))

(defun orgstore--offer-ignoring (dir)
  "Where git or Syncthing sync DIR, offer to keep the journal out of that."
  (dolist (file (orgstore--ignoring dir))
    (with-temp-buffer
      (when (file-exists-p file) (insert-file-contents file))
      (when-let* ((missing (seq-remove
                            (lambda (it)
                              (goto-char (point-min))
                              (re-search-forward
                               (format "^%s$" (regexp-quote it)) nil t))
                            orgstore--not-synced))
                  ((y-or-n-p (format "Keep the journal out of it, by lines in \
%s? " (abbreviate-file-name file)))))
        (goto-char (point-max))
        (unless (bolp) (insert "\n"))
        (insert (string-join missing "\n") "\n")
        (write-region nil nil file nil 'quietly)))))

;;;###autoload
(defun orgstore-setup (program dir)
  "Set up the store: the folder DIR, served by PROGRAM.
The program is tried, and the lines for the init file are offered to be written
there."
  (interactive
   (list (or (orgstore--look-for-program)
             (read-file-name "The program orgstore (made by ./install): "
                             nil nil t nil #'file-executable-p))
         (read-directory-name
          "Folder with your Org files: "
          (seq-find (lambda (it) (and (stringp it) (file-directory-p it)))
                    (list (car (ensure-list orgstore-directory))
                          (bound-and-true-p org-directory) "~/org" "~/"))
          nil t)))
  (let ((dir (file-name-as-directory dir))
        (orgstore-program (expand-file-name program)))
    (when-let* ((problem (or (orgstore--folder-problem dir)
                             (orgstore--program-problem))))
      (user-error "%s" problem)))
  (setq orgstore-program (expand-file-name program)
        orgstore-directory (file-name-as-directory dir))
  (let ((lines (orgstore--init-lines orgstore-program orgstore-directory)))
    (with-help-window "*orgstore setup*"
      (princ (format "The program works.  The lines for the init file:\n\n%s
All of your settings and hooks stay as they are.  New is:

- A command on an entry, as C-c C-t or C-c C-w, is saved when it ends.
- M-x orgstore-undo-last takes the last one back, in all files.
- A journal, orgstore.journal, stands beside the files.\n" lines)))
    (orgstore--offer-ignoring orgstore-directory)
    (let ((file (orgstore--write-init lines)))
      (require 'orgstore)
      (orgstore-global-mode 1)
      (message "%s is served now%s" (abbreviate-file-name dir)
               (if file (format ", later by %s" (abbreviate-file-name file))
                 "; the lines for the init file are in *orgstore setup*")))))

;;;; Status

(defun orgstore--print-folder (dir)
  "Print how the folder DIR of `orgstore-directory' stands."
  (princ (format "Folder %s: %s\n" (abbreviate-file-name dir)
                 (cond ((orgstore--folder-problem dir))
                       ((orgstore--journal-problem dir))
                       ((orgstore--gate-open-p dir)
                        "a step was cut short; M-x orgstore-recover")
                       (t "at rest")))))

(defun orgstore--print-buffers ()
  "Print the buffers of served files that aren't saved, and those bound to them."
  (let ((buffers (seq-filter (lambda (it)
                               (and (buffer-file-name it) (buffer-modified-p it)
                                    (orgstore--place it)))
                             (buffer-list))))
    (princ (if buffers "\nNot saved:\n" "\nAll served files are saved.\n"))
    (dolist (it buffers)
      (princ (format "  %s%s\n" (buffer-name it)
                     (if-let* ((others (remq it (orgstore--bound (list it)))))
                         (format ", together with %s"
                                 (mapconcat #'buffer-name others ", "))
                       ""))))))

(defun orgstore--print-finished ()
  "Print what was finished after a crash."
  (when orgstore--finished
    (princ "\nFinished after a crash:\n")
    (pcase-dolist (`(,time . ,words) orgstore--finished)
      (princ (format "  %s  %s\n" (format-time-string "%H:%M:%S" time)
                     words)))))

;;;###autoload
(defun orgstore-status ()
  "Show the program, the folders, what isn't saved, and what was."
  (interactive)
  (with-help-window "*orgstore status*"
    (princ (format "Program %s: %s\n" orgstore-program
                   (or (orgstore--program-problem) "it works")))
    (if orgstore-directory (mapc #'orgstore--print-folder (ensure-list orgstore-directory))
      (princ "`orgstore-directory' isn't set: do M-x orgstore-setup\n"))
    (orgstore--print-buffers)
    (orgstore--print-finished)
    (princ (format "\nThe last steps and saves, of which M-x \
orgstore-undo-last takes back the first:\n"))
    (pcase-dolist (`(,time . ,files) orgstore--history)
      (princ (format "  %s  %s\n" (format-time-string "%H:%M:%S" time)
                     (mapconcat (lambda (it)
                                  (format "%s (%+d bytes)"
                                          (file-name-nondirectory (car it))
                                          (orgstore--gain (cdr it))))
                                files ", "))))))

(provide 'orgstore-setup)
;;; orgstore-setup.el ends here
