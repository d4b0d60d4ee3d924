;;; orgstore-archive.el --- Archive all that is done  -*- lexical-binding: t; -*-
;; SPDX-License-Identifier: MIT OR Apache-2.0

;;; Commentary:

;; `orgstore-archive-done' archives many entries by Org's own
;; `org-archive-subtree', as one step: a quit in the middle keeps what is archived
;; by then, and leaves each entry in one place.

;;; Code:

(require 'org)
(require 'org-archive)
(require 'orgstore-step)

(defvar org-element--cache-interrupt-C-g) ; Else Org 9.7 takes a quit for its own.

(defun orgstore--closed-p (days)
  "Whether the entry at point was closed at least so many DAYS ago."
  (when-let* ((closed (org-entry-get (point) "CLOSED")))
    (>= (- (time-to-days (org-current-time))
           (time-to-days (org-time-string-to-time closed)))
        days)))

(defun orgstore--all-done-p ()
  "Whether the entry at point is done and has no open entry in it."
  (and (org-entry-is-done-p)
       (let ((end (save-excursion (org-end-of-subtree t))))
         (save-excursion
           (not (catch 'open
                  (while (and (outline-next-heading) (< (point) end))
                    (when (org-entry-is-todo-p) (throw 'open t)))))))))

(defun orgstore--done-entries (begin end days)
  "Return markers at what is done between BEGIN and END.
These are the topmost headings that are done, have no open entry in them and,
with DAYS, were closed at least so many days ago."
  (let (found)
    (save-excursion
      (goto-char begin)
      (unless (org-at-heading-p) (outline-next-heading))
      (while (and (< (point) end) (org-at-heading-p))
        (if (not (and (orgstore--all-done-p)
                      (or (null days) (orgstore--closed-p days))))
            (outline-next-heading)
          (push (point-marker) found)
          (org-end-of-subtree t t))))
    (nreverse found)))

(defun orgstore--archive-entries (markers)
  "Archive the entries at MARKERS until the user quits; return how many were."
  (let* ((all (length markers)) (done 0) (inhibit-quit t)
         (progress (make-progress-reporter "Archiving..." 0 all))
         org-element--cache-interrupt-C-g)
    (while (and markers (not quit-flag))
      (goto-char (pop markers))
      (let ((inhibit-message t)) (org-archive-subtree))
      (setq done (1+ done))
      (progress-reporter-update progress done))
    (setq quit-flag nil)
    done))

(defun orgstore--archive-all (markers)
  "Archive the entries at MARKERS as one step, and say how far that came."
  (let* ((all (length markers))
         (done (orgstore-as-step #'orgstore--archive-entries markers)))
    (message (if (< done all) "Stopped: %d of %d subtrees are archived"
               "Archived %d of %d subtrees")
             done all)))

;;;###autoload
(defun orgstore-archive-done (scope &optional days)
  "Archive each subtree in SCOPE that is done and has no open entry in it.
SCOPE is region, subtree or buffer, a symbol; the buffer is its accessible
part.  With DAYS, a numeric prefix argument, those alone that were closed at
least so many days ago.  \\[keyboard-quit] stops it, and what is archived by
then stays so."
  (interactive
   (list (if (use-region-p) 'region
           (intern (completing-read "Archive what is done in: "
                                    '("subtree" "buffer") nil t)))
         (and current-prefix-arg (prefix-numeric-value current-prefix-arg))))
  (pcase-let* ((`(,begin . ,end)
                (pcase scope
                  ('region (cons (region-beginning) (region-end)))
                  ('subtree (save-excursion
                              (org-back-to-heading t)
                              (cons (point) (save-excursion
                                              (org-end-of-subtree t)))))
                  (_ (cons (point-min) (point-max)))))
               (markers (orgstore--done-entries begin end days)))
    (cond
     ((null markers) (message "Nothing to archive"))
     ((or noninteractive
          (y-or-n-p (format "Archive %d subtrees? " (length markers))))
      (orgstore--archive-all markers)))))

(provide 'orgstore-archive)
;;; orgstore-archive.el ends here
