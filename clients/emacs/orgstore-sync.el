;;; orgstore-sync.el --- Sync, and what both sides changed  -*- lexical-binding: t; -*-
;; SPDX-License-Identifier: MIT OR Apache-2.0

;;; Commentary:

;; `orgstore-sync' saves, runs `orgs sync' in the folder of this buffer, and shows
;; what the merge tells.  `orgstore-conflicts' lists what both sides changed.  On a
;; mark `orgstore-keep-ours' and `orgstore-take-theirs' resolve it.
;;
;; The command `orgs' does all of it, so the rules stand in one place.  Nothing asks
;; for a password: git has to find it by itself.

;;; Code:

(require 'json)
(require 'org)
(require 'seq)
(require 'orgstore-program)
(require 'orgstore-recover)

(defcustom orgstore-orgs "orgs"
  "The command `orgs': a name, found by the variable `exec-path', or a file name.
One beside the program is taken first."
  :type 'string
  :group 'orgstore)

(defun orgstore--find-orgs ()
  "Return the file name of the command `orgs'."
  (or (executable-find (expand-file-name "orgs" (file-name-directory
                                                 (orgstore--find-program))))
      (executable-find orgstore-orgs)
      (user-error "There is no command %s; ./install puts it beside the program"
                  orgstore-orgs)))

(defun orgstore--objects ()
  "Return the objects of JSON in this buffer, each as an alist."
  (let ((json-object-type 'alist) (json-array-type 'list) (json-false nil) found)
    (goto-char (point-min))
    (while (re-search-forward "^{" nil t)
      (goto-char (match-beginning 0))
      (push (json-read) found))
    (nreverse found)))

(defun orgstore--orgs (root &rest words)
  "Run `orgs' at ROOT with WORDS.  Return (STATUS . OBJECTS)."
  (let* ((program (orgstore--find-program)) (orgs (orgstore--find-orgs))
         (process-environment (cons (concat "ORGSTORE_PROGRAM=" program)
                                    process-environment))
         (coding-system-for-read 'utf-8) (coding-system-for-write 'utf-8))
    (with-temp-buffer
      (setq default-directory root)
      (let ((status (apply #'call-process orgs nil '(t nil) nil
                           "-C" root "--json" words)))
        (cons status (orgstore--objects))))))

(defun orgstore--said (objects)
  "Return what `orgs' said at last, by OBJECTS."
  (or (alist-get 'message (car (last objects))) "`orgs' said nothing"))

;;;; Buffers

(defun orgstore--save-served (root)
  "Save the buffers of files in ROOT; signal an error where one isn't saved."
  (let ((here (lambda () (equal (car (orgstore--place)) root))))
    (save-some-buffers t here)
    (dolist (it (buffer-list))
      (with-current-buffer it
        (when (and buffer-file-name (buffer-modified-p) (funcall here))
          (user-error "%s isn't saved, and so nothing was done"
                      (buffer-name it)))))))

(defun orgstore--show-disk (root)
  "Have buffers of files in ROOT show what is on the disk."
  (dolist (it (buffer-list))
    (with-current-buffer it
      (when (and buffer-file-name (equal (car (orgstore--place)) root)
                 (not (buffer-modified-p)) (file-exists-p buffer-file-name)
                 (not (verify-visited-file-modtime)))
        (revert-buffer t t t)))))

;;;; Reports

(defun orgstore--way-to (root file line title)
  "Return a link to LINE of FILE in ROOT, or else to the heading TITLE."
  (let ((way (concat "file:" (expand-file-name file root))))
    (cond (line (org-link-make-string (format "%s::%d" way line)
                                      (format "%s:%d" file line)))
          ((string-empty-p (or title "")) (org-link-make-string way file))
          (t (org-link-make-string (concat way "::*" title)
                                   (format "%s: %s" file title))))))

(defun orgstore--item (root object)
  "Return OBJECT, a mark or an event of a merge in ROOT, as an item of a list."
  (let-alist object
    (concat "- " (orgstore--way-to root .file .line .title)
            (if (equal .reply "mark")
                (concat "  " (string-join .path "/") "\n"
                        (mapconcat (lambda (it) (format "  : ours    %s\n" it))
                                   .ours "")
                        (mapconcat (lambda (it) (format "  : theirs  %s\n" it))
                                   .theirs ""))
              (format "  %s: %s%s\n" .reply .what
                      (if (string-empty-p .theirs) ""
                        (format " (%s)" .theirs)))))))

(defun orgstore--report (root title objects)
  "Show OBJECTS, which `orgs' said of a merge in ROOT, below TITLE."
  (with-current-buffer (get-buffer-create "*orgstore sync*")
    (let ((inhibit-read-only t))
      (erase-buffer)
      (insert title "\n\n")
      (mapc (lambda (it) (insert (orgstore--item root it))) objects))
    (org-mode)
    (setq default-directory root)
    (set-buffer-modified-p nil)
    (read-only-mode 1)
    (goto-char (point-min))
    (display-buffer (current-buffer))))

;;;; The commands

;;;###autoload
(defun orgstore-sync ()
  "Sync the folder of this buffer with its git remote, by `orgs sync'.
Buffers are saved first, and show the merge then.  What it tells is listed."
  (interactive)
  (let ((root (car (orgstore--folder-here))))
    (orgstore--save-served root)
    (message "Syncing %s.." (abbreviate-file-name root))
    (pcase-let ((`(,status . ,objects) (orgstore--orgs root "sync")))
      (orgstore--show-disk root)
      (unless (equal status 0)
        (user-error "%s" (orgstore--said objects)))
      (let ((events (seq-filter (lambda (it) (member (alist-get 'reply it)
                                                     '("conflict" "note")))
                                objects)))
        (let-alist (car (last objects))
          (let ((says (format "%s: %d came, %d went, %d conflicts"
                              .remote .came .went .conflicts)))
            (when events (orgstore--report root says events))
            (message "%s" says)))))))

;;;###autoload
(defun orgstore-conflicts ()
  "List what both sides of merges changed in the folder of this buffer."
  (interactive)
  (pcase-let* ((root (car (orgstore--folder-here)))
               (`(,status . ,objects)
                (progn (orgstore--save-served root)
                       (orgstore--orgs root "conflicts"))))
    (cond ((equal status 0)
           (orgstore--report root (format "Conflicts in %s"
                                          (abbreviate-file-name root))
                             objects))
          (objects (user-error "%s" (orgstore--said objects)))
          (t (message "There are no conflicts")))))

(defun orgstore--resolve (choice)
  "Resolve the mark in this line by CHOICE, an option of `orgs resolve'."
  (let* ((place (or (orgstore--place (orgstore--base))
                    (user-error "This buffer visits no served file")))
         (line (line-number-at-pos nil t)))
    (orgstore--save-served (car place))
    (pcase-let ((`(,status . ,objects)
                 (orgstore--orgs (car place) "resolve"
                                 (format "%s:%d" (cdr place) line) choice)))
      (unless (equal status 0)
        (user-error "%s" (orgstore--said objects)))
      (orgstore--show-disk (car place)))))

;;;###autoload
(defun orgstore-keep-ours ()
  "Take the conflict in this line away, and keep ours."
  (interactive)
  (orgstore--resolve "--ours"))

;;;###autoload
(defun orgstore-take-theirs ()
  "Put theirs in the place of ours, of the conflict in this line."
  (interactive)
  (orgstore--resolve "--theirs"))

(provide 'orgstore-sync)
;;; orgstore-sync.el ends here
