;;; agenda.el --- what Org's agenda has, by day  -*- lexical-binding: t -*-
;; Standard input has lines of FOLDER, a tab, TODAY, a tab, FIRST, a tab, DAYS. For each the items of all files of the
;; folder are written, DAY, file and line of the heading, and the leader, with tabs between; then a line "end".
(require 'org)
(require 'org-agenda)
(setq org-agenda-show-all-dates t org-agenda-log-mode-items nil vc-handled-backends nil create-lockfiles nil
      org-todo-keywords '((sequence "TODO" "WAIT" "|" "DONE" "CANCELLED")) enable-local-variables nil)
(defvar judge-today nil)
(advice-add 'org-today :override (lambda () judge-today))
(defun judge-absolute (text)
  "The absolute day number of TEXT, a date."
  (let ((date (parse-time-string text)))
    (calendar-absolute-from-gregorian (list (nth 4 date) (nth 3 date) (nth 5 date)))))
(defun judge-day (file day)
  "Write the items of FILE on DAY, an absolute number."
  (let* ((date (calendar-gregorian-from-absolute day))
         (org-agenda-buffer nil)
         (items (org-agenda-get-day-entries file date :deadline :scheduled :timestamp)))
    (dolist (item items)
      (let ((marker (get-text-property 0 'org-hd-marker item)))
        (princ (format "%04d-%02d-%02d\t%s\t%d\t%s\n" (nth 2 date) (nth 0 date) (nth 1 date)
                       (file-name-nondirectory file)
                       (with-current-buffer (marker-buffer marker) (line-number-at-pos marker))
                       (substring-no-properties (or (get-text-property 0 'extra item) ""))))))))
(condition-case nil
    (while t
      (pcase-let* ((`(,folder ,today ,first ,days) (split-string (read-string "") "\t"))
                   (files (directory-files folder t "\\.org\\'")))
        (setq judge-today (judge-absolute today))
        (org-agenda-prepare-buffers files)
        (dotimes (number (string-to-number days))
          (dolist (file files)
            (judge-day file (+ (judge-absolute first) number))))
        (dolist (buffer (buffer-list))
          (when (buffer-file-name buffer) (kill-buffer buffer)))
        (princ "end\n")))
  (end-of-file nil))
