;;; dates.el --- what Org's prompt makes of dates  -*- lexical-binding: t -*-
;; Standard input has lines of NOW, a tab and what is typed; each is answered by the date, and the times where some were
;; given.
(require 'org)
(defvar judge-now nil)
(defun judge-at (run &optional time &rest rest)
  "Call RUN with TIME, else with the fixed moment, and REST."
  (apply run (or time judge-now) rest))
(advice-add 'decode-time :around #'judge-at)
(advice-add 'current-time :around (lambda (run) (or judge-now (funcall run))))
(advice-add 'format-time-string :around
            (lambda (run format &optional time &rest rest) (apply run format (or time judge-now) rest)))
(defvar org-time-was-given)
(defvar org-end-time-was-given)
(setenv "TZ" "UTC")
(set-time-zone-rule "UTC")
(condition-case nil
    (while t
      (let* ((line (split-string (read-string "") "\t"))
             (judge-now (date-to-time (concat (car line) ":00 +0000")))
             (org-time-was-given nil)
             (org-end-time-was-given nil)
             (text (condition-case nil
                       (let ((read (org-read-date-analyze (cadr line) judge-now (decode-time judge-now))))
                         (concat (format-time-string "%Y-%m-%d" (apply #'encode-time (append (seq-take read 6) nil)))
                                 (if org-time-was-given (format " %02d:%02d" (nth 2 read) (nth 1 read)) "")
                                 (if org-end-time-was-given (concat "-" org-end-time-was-given) "")))
                     (error "error"))))
        (princ (concat text "\n"))))
  (error nil))
