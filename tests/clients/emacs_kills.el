;;; emacs_kills.el --- What Emacs does in tests/clients/emacs_kills  -*- lexical-binding: t; -*-

;; SPDX-License-Identifier: MIT OR Apache-2.0

;;; Commentary:

;; KILLS_MODE says what: `look' shows the files; `work' refiles and archives at random
;; until Emacs is killed; `refile', `archive' and `three' are one step over two or three
;; files, at whose call KILLS_AT the program is killed; `trouble' is a step that can't be
;; written, for the reason KILLS_TROUBLE, and a save after it; `recover' answers KILLS_KEY
;; to the question what is to become of a step that was cut short.

;;; Code:

(require 'org)
(require 'org-archive)
(require 'org-refile)
(require 'rmc)
(require 'orgstore)

(setq orgstore-directory (getenv "KILLS_NOTES")
      orgstore-program (getenv "KILLS_PROGRAM")
      create-lockfiles nil
      make-backup-files nil
      org-inhibit-startup t
      org-archive-file-header-format nil)
(orgstore-global-mode 1)

(defun kills-file (name)
  "Return the file NAME of the notes."
  (expand-file-name name orgstore-directory))

(defun kills-files ()
  "Return the files of the notes."
  (directory-files orgstore-directory t "\\`[a-z]+\\.org\\(_archive\\)?\\'"))

(defun kills-box (name)
  "Return the Box of the file NAME as `org-refile' wants it."
  (list "Box" (kills-file name) nil
        (with-current-buffer (find-file-noselect (kills-file name))
          (save-excursion
            (goto-char (point-min))
            (re-search-forward "^\\* Box")
            (line-beginning-position)))))

(defun kills-go (name title)
  "Go to TITLE in the file NAME."
  (set-buffer (find-file-noselect (kills-file name)))
  (goto-char (point-min))
  (re-search-forward (concat "^\\*+ " title "$"))
  (beginning-of-line))

(defun kills-work ()
  "Refile and archive without end."
  (random (getenv "KILLS_SEED"))
  (while t
    (let* ((files (kills-files))
           (from (nth (random (length files)) files))
           (to (nth (random 3) '("a.org" "b.org" "c.org")))
           heads)
      (with-current-buffer (find-file-noselect from)
        (goto-char (point-min))
        (while (re-search-forward "^\\*+ E[0-9][0-9]$" nil t)
          (push (line-beginning-position) heads))
        (when heads
          (goto-char (nth (random (length heads)) heads))
          (if (and (= 0 (random 3)) (not (string-suffix-p "_archive" from)))
              (org-archive-subtree)
            (unless (equal (kills-file to) from)
              (org-refile nil nil (kills-box to))))
          (message "step"))))))

(defun kills-three ()
  "Move an entry of each of two files into a third."
  (kills-go "a.org" "E00")
  (org-refile nil nil (kills-box "c.org"))
  (kills-go "b.org" "E01")
  (org-refile nil nil (kills-box "c.org")))

(defvar kills-before nil "The files before the step, with their bytes.")

(defun kills-bytes ()
  "Return the files of the notes with their bytes."
  (mapcar (lambda (it)
            (cons (file-name-nondirectory it)
                  (with-temp-buffer
                    (insert-file-contents-literally it)
                    (buffer-string))))
          (kills-files)))

(defun kills-tell (want)
  "Say how many buffers are modified, and how many of the files WANT have changed."
  (let* ((after (kills-bytes))
         (changed (seq-filter (lambda (it)
                                (not (equal (cdr (assoc it kills-before))
                                            (cdr (assoc it after)))))
                              want))
         (modified (seq-filter (lambda (it) (and (buffer-file-name it) (buffer-modified-p it)))
                               (buffer-list))))
    (princ (format "kills: %d %s\n" (length modified)
                   (cond ((null changed) "none")
                         ((= (length changed) (length want)) "all")
                         (t "some"))))))

(defun kills-step (step want)
  "Do STEP, which changes the files WANT, say what came of it, save, and say it again."
  ;; The program is looked at before it is killed.
  (orgstore--find-program)
  (dolist (it (kills-files)) (find-file-noselect it))
  (setq kills-before (kills-bytes))
  (write-region (format "kill %s\n" (getenv "KILLS_AT")) nil (getenv "KILLS_PLAN") nil 'quiet)
  (condition-case err (funcall step)
    (error (message "%s" (error-message-string err))))
  (kills-tell want)
  (when (file-exists-p (getenv "KILLS_PLAN")) (delete-file (getenv "KILLS_PLAN")))
  ;; One of them takes the others with it.
  (with-current-buffer (get-file-buffer (kills-file (car want)))
    (save-buffer))
  (kills-tell want))

(defun kills-trouble ()
  "Do a step that can't be written, wait, and save."
  (orgstore--find-program)
  (dolist (it (kills-files)) (find-file-noselect it))
  (setq kills-before (kills-bytes))
  (let ((trouble (getenv "KILLS_TROUBLE")))
    (pcase trouble
      ("full" (write-region "full 1\n" nil (getenv "KILLS_PLAN") nil 'quiet))
      ("quota" (write-region "" nil (getenv "QUOTA_WHILE") nil 'quiet))
      ("read-only" (set-file-modes (kills-file "b.org") #o444))
      ("writer"
       (write-region "* Box\nwritten by another\n" nil (kills-file "b.org") nil 'quiet)
       (set-file-times (kills-file "b.org") (time-add nil 60))
       (push (cons "b.org" "* Box\nwritten by another\n") kills-before)))
    ;; Not even the buffer shall be read-only.
    (cl-letf (((symbol-function 'y-or-n-p) #'ignore)
              ((symbol-function 'yes-or-no-p) #'ignore)
              ((symbol-function 'userlock--ask-user-about-supersession-threat) #'ignore))
      (kills-go "a.org" "E00")
      (condition-case err (org-refile nil nil (kills-box "b.org"))
        (error (message "%s" (error-message-string err)))))
    (kills-tell '("a.org" "b.org"))
    (read-from-minibuffer "")
    (when (equal trouble "quota") (delete-file (getenv "QUOTA_WHILE")))
    (cl-letf (((symbol-function 'yes-or-no-p) #'always))
      (with-current-buffer "b.org" (save-buffer)))
    (kills-tell '("a.org" "b.org"))))

(defun kills-recover ()
  "Settle the step that was cut short, as KILLS_KEY says."
  (orgstore--find-program)
  (cl-letf (((symbol-function 'read-multiple-choice)
             (lambda (_ choices &rest _)
               (message "step")
               (assq (aref (getenv "KILLS_KEY") 0) choices))))
    (with-current-buffer (find-file-noselect (kills-file "a.org"))
      (orgstore-recover))))

(pcase (getenv "KILLS_MODE")
  ("look" (dolist (it (kills-files))
            (with-current-buffer (find-file-noselect it) (princ (buffer-string)))))
  ("work" (kills-work))
  ("refile" (kills-step (lambda ()
                          (kills-go "a.org" "E00")
                          (org-refile nil nil (kills-box "b.org")))
                        '("a.org" "b.org")))
  ("archive" (kills-step (lambda () (kills-go "a.org" "E00") (org-archive-subtree))
                         '("a.org" "a.org_archive")))
  ("three" (kills-step (lambda () (orgstore-as-step #'kills-three))
                       '("a.org" "b.org" "c.org")))
  ("recover" (kills-recover))
  ("trouble" (kills-trouble)))

;;; emacs_kills.el ends here
