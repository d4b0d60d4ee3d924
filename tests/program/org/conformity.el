;;; conformity.el --- Org itself does the lines of tests/program/conformity  -*- lexical-binding: t; -*-

;; SPDX-License-Identifier: MIT OR Apache-2.0

;;; Commentary:

;; The arguments are -Q --batch -l conformity.el -f conformity-run TABLE TOLD.
;;
;; TABLE is a file of lines, with fields between tabs.  A line `case' begins a case
;; with its folder, its states as Org has them, and an alist of settings; the
;; others are command lines of the store.  Each is done by the function of Org
;; that a user's key would call, and the buffers that it changed are saved, after
;; an error too.  TOLD gets a line for each: `ok', `time', `refused' or `fault'.
;;
;; clock.c gives the moments.  What Org asks in a batch it reads from standard
;; input, which has a `y' in each line.

;;; Code:

;; No other Emacs shall compile beside this one.  The first name is that of Emacs 28.
(dolist (name '(native-comp-deferred-compilation native-comp-jit-compilation))
  (set name nil))

(require 'cl-lib)
(require 'org)
(require 'org-archive)
(require 'org-capture)
(require 'org-clock)
(require 'org-refile)

(setq make-backup-files nil
      auto-save-default nil
      create-lockfiles nil
      vc-handled-backends nil
      enable-local-variables :safe
      use-short-answers t
      org-adapt-indentation nil
      org-auto-align-tags nil
      org-log-done 'time
      org-archive-file-header-format nil
      org-bookmark-names-plist nil
      org-clock-auto-clock-resolution nil
      org-clock-out-when-done nil
      org-provide-todo-statistics nil)

(define-error 'conformity-no-heading "No heading")

(defvar conformity-takes-up t
  "Whether an open clock line is taken up that this Emacs didn't write.")

(defvar conformity-told nil
  "The file that gets what there is to tell of each line.")

(defvar conformity-moments 0
  "How often the clock was set.")

(defvar conformity-note "why"
  "What is typed where Org asks for a note.")

;;;; Fields

(defun conformity-field (field)
  "Return the text that FIELD of a command line stands for."
  (replace-regexp-in-string
   "\\\\." (lambda (escape)
             (pcase (aref escape 1) (?n "\n") (?t "\t") (?s "/") (_ "\\")))
   field t t))

(defun conformity-path (field)
  "Return the list of titles of the path FIELD."
  (mapcar #'conformity-field (split-string field "/")))

(defun conformity-have-it-be (moment)
  "Set the clock to MOMENT, anew where it was set to that before."
  (let ((second (encode-time (append '(0) (cdr (parse-time-string moment))))))
    (setq conformity-moments (1+ conformity-moments))
    (write-region (format "%s %d" (format-time-string "%s" second) conformity-moments)
                  nil (getenv "CLOCK") nil 'silent)))

;;;; Headings

(defun conformity-children (parent)
  "Return the places of the children of the heading at PARENT, or all roots.
As in the store, a child may lie more than one level deeper."
  (let ((end (point-max)) (bound most-positive-fixnum) children)
    (goto-char (or parent (point-min)))
    (when parent
      (setq end (save-excursion (org-end-of-subtree t t) (point)))
      (forward-line))
    (while (re-search-forward "^\\*+ " end t)
      (let ((level (- (match-end 0) (match-beginning 0))))
        (when (<= level bound)
          (setq bound level)
          (push (match-beginning 0) children))))
    (nreverse children)))

(defun conformity-visit (file path)
  "Go to the heading at PATH of FILE, to the first where there are several."
  (set-buffer (find-file-noselect file))
  (widen)
  (let (place)
    (dolist (title path)
      (setq place (seq-find (lambda (child)
                              (goto-char child)
                              (equal (or (org-get-heading t t t) "") title))
                            (conformity-children place)))
      (unless place (signal 'conformity-no-heading (list title))))
    (goto-char place)))

;;;; Commands

(defun conformity-capture (file target place moment template initial)
  "Capture TEMPLATE with the text INITIAL to TARGET of FILE at MOMENT.
PLACE is first or last."
  (conformity-have-it-be moment)
  (let* ((file (expand-file-name file))
         (value (and (string-match ":" target) (substring target (match-end 0))))
         (where (pcase (car (split-string target ":"))
                  ("top" (list 'file file))
                  ("head" (list 'file+headline file (conformity-field value)))
                  ("path" (append (list 'file+olp file) (conformity-path value)))
                  ("date" (append (list 'file+olp+datetree file)
                                  (and value (conformity-path value))))))
         (org-capture-templates
          (list (list "x" "x" 'entry where (conformity-field template)
                      :immediate-finish t :empty-lines 0
                      :prepend (equal place "first")))))
    (org-capture-string (conformity-field initial) "x")))

(defun conformity-refile (file path to target place)
  "Refile the subtree at PATH of FILE below TARGET of TO, at PLACE."
  (conformity-visit to (conformity-path target))
  (let ((org-reverse-note-order (equal place "first"))
        (where (list target (expand-file-name to) nil (point))))
    (conformity-visit file (conformity-path path))
    (org-refile nil nil where)))

(defun conformity-archive (file path moment)
  "Archive the subtree at PATH of FILE at MOMENT."
  (conformity-have-it-be moment)
  (conformity-visit file (conformity-path path))
  (org-archive-subtree))

(defun conformity-write-notes ()
  "Do what Org does when its command has ended: write a note, or ask for it."
  (run-hooks 'post-command-hook)
  (when (get-buffer "*Org Note*")
    (set-buffer "*Org Note*")
    (goto-char (point-max))
    (insert conformity-note)
    (org-ctrl-c-ctrl-c)))

(defun conformity-todo (file path state moment)
  "Set the heading at PATH of FILE to STATE at MOMENT."
  (conformity-have-it-be moment)
  (conformity-visit file (conformity-path path))
  (unwind-protect
      (org-todo (if (equal state "") 'none (conformity-field state)))
    (conformity-write-notes)))

(defun conformity-take-up-clock ()
  "Have Org know the first open clock line of the folder, where it knows none."
  (unless (or (org-clocking-p) (not conformity-takes-up))
    (let ((clock (cl-loop for file in (directory-files "." t "\\.org\\(_archive\\)?\\'")
                          thereis (car (last (org-find-open-clocks file))))))
      (when clock (org-clock-clock-in clock t (cdr clock))))))

(defun conformity-clock-in (file path moment)
  "Clock in on the heading at PATH of FILE at MOMENT."
  (conformity-take-up-clock)
  (conformity-have-it-be moment)
  (conformity-visit file (conformity-path path))
  (org-clock-in)
  (conformity-write-notes))

(defun conformity-clock-out (moment)
  "Clock out at MOMENT."
  (conformity-take-up-clock)
  (conformity-have-it-be moment)
  (org-clock-out)
  (conformity-write-notes))

(defun conformity-time (file path)
  "Return the clocked time of the heading at PATH of FILE."
  (conformity-visit file (conformity-path path))
  (let ((minutes (org-clock-sum-current-item)))
    (format "time %d:%02d" (/ minutes 60) (% minutes 60))))

;;;; Cases

(defun conformity-save ()
  "Save the buffers of files."
  (dolist (buffer (buffer-list))
    (when (and (buffer-file-name buffer) (buffer-modified-p buffer))
      (with-current-buffer buffer
        (save-buffer)))))

(defun conformity-close ()
  "Forget the clock and all buffers of files."
  (move-marker org-clock-marker nil)
  (move-marker org-clock-hd-marker nil)
  (setq org-clock-history nil)
  (remove-hook 'post-command-hook #'org-add-log-note)
  (dolist (buffer (buffer-list))
    (when (or (buffer-file-name buffer) (buffer-base-buffer buffer)
              (equal (buffer-name buffer) "*Org Note*"))
      (with-current-buffer buffer (set-buffer-modified-p nil))
      (let (kill-buffer-hook kill-buffer-query-functions)
        (kill-buffer buffer)))))

(defun conformity-line (words)
  "Do the command line of WORDS, and return what there is to tell of it.
Only an error that Org itself signals is a refusal."
  (let ((default-directory default-directory))
    (condition-case err
        (save-window-excursion
          (let ((answer (apply (intern (concat "conformity-" (car words))) (cdr words))))
            (if (equal (car words) "time") answer "ok")))
      (error (concat (if (memq (car err) '(error user-error)) "refused " "fault ")
                     (car (split-string (error-message-string err) "\n")))))))

(defun conformity-case (folder states settings lines)
  "Do LINES in FOLDER, with the keywords STATES and the alist SETTINGS."
  (let ((default-directory (file-name-as-directory folder))
        (org-todo-keywords (list (cons 'sequence states)))
        (org-directory folder)
        (org-agenda-files (list folder))
        (abbreviated-home-dir nil))
    (setenv "HOME" folder)
    (cl-progv (mapcar #'car settings) (mapcar #'cdr settings)
      (dolist (line lines)
        (let ((said (conformity-line line)))
          (conformity-save)
          (write-region (concat said "\n") nil conformity-told t 'silent)))
      (conformity-close))))

(defun conformity-run ()
  "Do the cases of a table, which the command line names, and a file to tell."
  (set-language-environment "UTF-8")
  (setq auto-mode-alist (cons '("\\.org_archive\\'" . org-mode) auto-mode-alist)
        inhibit-message t)
  (let (cases)
    (with-temp-buffer
      (insert-file-contents (pop command-line-args-left))
      (setq conformity-told (expand-file-name (pop command-line-args-left)))
      (dolist (line (split-string (buffer-string) "\n" t))
        (let ((words (split-string line "\t")))
          (if (equal (car words) "case")
              (push (list words) cases)
            (push words (cdr (car cases)))))))
    (pcase-dolist (`((,_ ,folder ,states ,settings) . ,lines) (nreverse cases))
      (conformity-case folder (split-string states " ") (car (read-from-string settings))
                       (reverse lines)))))

(provide 'conformity)
;;; conformity.el ends here
