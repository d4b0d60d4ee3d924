;;; bench-org.el --- Times command lines as Org itself does them  -*- lexical-binding: t; -*-

;; SPDX-License-Identifier: MIT OR Apache-2.0

;;; Commentary:

;; emacs -Q --batch -l bench-org.el -f bench-org-run LINES WARM_UP
;;
;; Does the command lines of the file LINES in the current folder by the functions
;; of tests/program/org/conformity.el, each with its save, which Emacs syncs as it does for
;; a user.  What it takes to find a heading by its path isn't part of it, for a user
;; is there already; nor is redisplay, for Emacs runs in batch.  Prints the seconds
;; of each line after the first WARM_UP, one a line.

;;; Code:

(load (expand-file-name "../tests/program/org/conformity.el" (file-name-directory load-file-name)) nil t)

(defvar org-todo-keywords)
(declare-function conformity-line "conformity")
(declare-function conformity-save "conformity")

(defvar bench-org-looking 0
  "The seconds that headings were looked for so far.")

(defun bench-org-visit (visit file path)
  "Call VISIT with FILE and PATH, and add up the time that it takes."
  (let ((since (float-time)))
    (funcall visit file path)
    (setq bench-org-looking (+ bench-org-looking (- (float-time) since)))))

(defun bench-org-run ()
  "Time the lines of a file, which the command line names."
  (set-language-environment "UTF-8")
  (setq inhibit-message t
        write-region-inhibit-fsync nil
        large-file-warning-threshold nil
        org-todo-keywords '((sequence "TODO" "|" "DONE"))
        auto-mode-alist (cons '("\\.org_archive\\'" . org-mode) auto-mode-alist))
  ;; The moment of a command is the present one: nothing is read of a clock's file.
  (defalias 'conformity-have-it-be #'ignore)
  (advice-add 'conformity-visit :around #'bench-org-visit)
  (setenv "HOME" default-directory)
  (let ((lines (with-temp-buffer
                 (insert-file-contents (pop command-line-args-left))
                 (split-string (buffer-string) "\n" t)))
        (warm-up (string-to-number (pop command-line-args-left))))
    (dolist (line lines)
      (setq bench-org-looking 0)
      (let ((since (float-time))
            (said (conformity-line (split-string line "\t"))))
        (conformity-save)
        (unless (equal said "ok") (message "%s: %s" line said) (kill-emacs 1))
        (when (< (setq warm-up (1- warm-up)) 0)
          (princ (format "%.6f\n" (- (float-time) since bench-org-looking))))))))

(provide 'bench-org)
;;; bench-org.el ends here
