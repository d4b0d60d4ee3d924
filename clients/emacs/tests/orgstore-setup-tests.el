;;; orgstore-setup-tests.el --- The mode, set-up and status  -*- lexical-binding: t; -*-

;; SPDX-License-Identifier: MIT OR Apache-2.0

;; This file is not part of GNU Emacs.

;;; Commentary:

;; What the mode turns on and off, what loading costs, set-up, status, the check of
;; the program, and `orgstore-archive-done'.

;;; Code:

(require 'orgstore-test-support)
(unless ost-plain
  (require 'orgstore-setup)
  (require 'orgstore-archive))
(defvar orgstore-commands)
(setq ost-file (or load-file-name buffer-file-name))

(defun ost-script (name &rest lines)
  "Write the script NAME of these shell LINES, and return its file name."
  (let ((file (expand-file-name name ost-base)))
    (write-region (concat "#!/bin/sh\n" (string-join lines "\n") "\n") nil file nil 'quiet)
    (set-file-modes file #o755)
    file))

(defmacro ost-error (words &rest body)
  "Check that BODY ends in an error of which WORDS are a part."
  (declare (indent 1) (debug t))
  `(let ((text (error-message-string (should-error (progn ,@body)))))
     (should (string-search ,words text))))

;;;; The mode

(defun ost-advised ()
  "Return the functions that have advice of this package."
  (let (found)
    (mapatoms (lambda (it)
                (advice-mapc (lambda (advice _)
                               (when (and (symbolp advice)
                                          (string-prefix-p "orgstore-" (symbol-name advice)))
                                 (push it found)))
                             it)))
    found))

(defun ost-hooked ()
  "Return the functions of this package on hooks, in any buffer."
  (let (found)
    (dolist (buffer (buffer-list) found)
      (with-current-buffer buffer
        (mapatoms
         (lambda (it)
           (when (and (boundp it) (string-match-p "-\\(hook\\|functions\\)\\'" (symbol-name it)))
             (dolist (function (ensure-list (symbol-value it)))
               (when (and (symbolp function)
                          (string-prefix-p "orgstore-" (symbol-name function)))
                 (cl-pushnew function found))))))))))

(ost-alone mode-off-leaves-nothing '(("a.org" . "* A\n"))
  (ost-open "a.org" "A")
  (should (memq 'basic-save-buffer (ost-advised)))
  (should (memq 'org-refile (ost-advised)))
  (should (memq 'orgstore--before-change (ost-hooked)))
  (should (advice-function-member-p #'orgstore--command-error command-error-function))
  (orgstore-global-mode -1)
  (should-not (ost-advised))
  (should-not (ost-hooked))
  (should-not (advice-function-member-p #'orgstore--command-error command-error-function))
  (insert "x\n")
  (save-buffer)
  (should (equal "x\n* A\n" (ost-disk "a.org")))
  (should (= 0 (ost-runs)))
  (should-not (file-exists-p (ost-path "orgstore.journal"))))

(ost-alone mode-on-takes-open-buffers '(("a.org" . "* A\n"))
  (orgstore-global-mode -1)
  (ost-open "a.org" "A")
  (orgstore-global-mode 1)
  (ost-cmd 1 (org-todo "TODO"))
  (should (equal "* TODO A\n" (ost-disk "a.org"))))

(ost-alone commands-are-a-choice '(("a.org" . "* A\n"))
  (let ((before orgstore-commands))
    (unwind-protect
        (progn
          (customize-set-variable 'orgstore-commands (remq 'org-todo before))
          (ost-open "a.org" "A")
          (org-todo "TODO")
          (should (buffer-modified-p))
          (customize-set-variable 'orgstore-commands before)
          (ost-cmd 1 (org-todo "DONE")))
      (customize-set-variable 'orgstore-commands before))))

;; In a new Emacs each time, so that no other library is loaded before.
(ost-alone loading '(("a.org" . "* A\n"))
  (let (times)
    (dotimes (_ 5)
      (with-temp-buffer
        (call-process
         (or (getenv "ORGSTORE_EMACS") "emacs") nil t nil "-Q" "--batch"
         "-L" (file-name-directory (locate-library "orgstore"))
         ;; A collection of garbage would fall into it, or not; and other processes
         ;; of the machine don't count.
         "--eval" "(let ((begin (get-internal-run-time))
                         (gc-cons-threshold most-positive-fixnum))
                     (require 'orgstore)
                     (prin1 (list (float-time (time-subtract (get-internal-run-time) begin))
                                  (featurep 'org))))")
        (goto-char (point-min))
        (let ((it (read (current-buffer))))
          (should-not (nth 1 it))
          (push (car it) times))))
    (should (< (apply #'min times) 0.02))))

;;;; The program

(ost-alone no-program '(("a.org" . "* A\n"))
  (setq orgstore-program "/nowhere/orgstore")
  (ost-open "a.org" "A")
  (ost-error "There is no program /nowhere/orgstore" (org-todo "TODO"))
  (should (buffer-modified-p))
  (should (equal "* A\n" (ost-disk "a.org")))
  (setq orgstore-program (ost-program-file)))

(ost-alone older-program '(("a.org" . "* A\n"))
  (ost-open "a.org" "A")
  (setq orgstore-program (ost-script "older" "echo 'usage: orgstore DIR' >&2" "exit 2"))
  (ost-error "is older than this package" (org-todo "TODO"))
  (setq orgstore-program (ost-script "without-edit" "echo refused 20 BadLine" "exit 1"))
  (ost-error "is older than this package" (save-buffer))
  (setq orgstore-program (ost-script "another" "exec cat"))
  (ost-error "doesn't work" (save-buffer))
  (should (equal "* A\n" (ost-disk "a.org")))
  (setq orgstore-program (ost-program-file))
  (ost-cmd nil (save-buffer))
  (should (equal "* TODO A\n" (ost-disk "a.org"))))

;;;; Set-up

(ost-alone setup '(("a.org" . "* A\n"))
  (let* ((user-init-file (expand-file-name "init.el" ost-base))
         (lines (lambda () (ost-bytes user-init-file))))
    (orgstore-global-mode -1)
    (write-region "(setq x 1)" nil user-init-file nil 'quiet)
    (cl-letf (((symbol-function 'y-or-n-p) (lambda (&rest _) t)))
      (orgstore-setup (ost-program-file) ost-beside)
      (should (string-search (format "(setq orgstore-directory %S" ost-beside) (funcall lines)))
      (orgstore-setup (ost-program-file) ost-dir))
    (should orgstore-global-mode)
    (should (equal orgstore-directory ost-dir))
    (should (string-prefix-p "(setq x 1)\n\n;; orgstore: " (funcall lines)))
    (should (string-suffix-p "(orgstore-global-mode 1)\n" (funcall lines)))
    (should-not (string-search "beside" (funcall lines)))
    (should (= 1 (ost-how-many "add-to-list" (funcall lines))))
    ;; They do what they say.
    (with-temp-buffer
      (insert (funcall lines))
      (setq orgstore-directory nil)
      (eval-buffer))
    (should (equal orgstore-directory ost-dir))
    (ost-open "a.org" "A")
    (ost-cmd 1 (org-todo "TODO"))))

(defun ost-how-many (regexp text)
  "Return how often REGEXP is in TEXT."
  (with-temp-buffer
    (insert text)
    (how-many regexp (point-min) (point-max))))

(ost-alone setup-refuses '(("a.org" . "* A\n"))
  (let ((old (ost-script "older" "exit 2")))
    (ost-error "isn't a folder" (orgstore-setup (ost-program-file) (ost-path "none/")))
    (ost-error "is remote" (orgstore-setup (ost-program-file) "/ssh:nowhere:/notes/"))
    (ost-error "There is no program" (orgstore-setup "/nowhere/orgstore" ost-dir))
    (ost-error "is older" (orgstore-setup old ost-dir))
    (should (equal orgstore-program (ost-program-file)))))

(ost-alone status '(("a.org" . "* A\n* B\n") ("b.org" . "* T\n"))
  (let ((text (lambda ()
                (save-window-excursion (orgstore-status))
                (with-current-buffer "*orgstore status*" (buffer-string)))))
    (should (string-search "it works" (funcall text)))
    (ost-open "a.org" "A")
    (ost-cmd 1 (org-todo "TODO"))
    (should (string-search "at rest" (funcall text)))
    (should (string-search "a.org (+5 bytes)" (funcall text)))
    (should (string-search "All served files are saved" (funcall text)))
    (ost-open "b.org") (insert "x\n")
    (ost-open "a.org") (insert "x\n")
    (orgstore--bond (list (get-buffer "a.org") (get-buffer "b.org")))
    (should (string-search "  a.org, together with b.org" (funcall text)))
    (setq orgstore-program "/nowhere/orgstore")
    (should (string-search "There is no program" (funcall text)))
    (setq orgstore-program (ost-program-file))))

;;;; Archiving what is done

(defconst ost-done
  (concat "#+STARTUP: nologdone\n* DONE A\nCLOSED: [2026-06-01 Mon 10:00]\n** TODO still open\n"
          "* DONE B\nCLOSED: [2026-06-30 Tue 10:00]\n** DONE below\n* TODO C\n** DONE D\n"
          (mapconcat (lambda (i) (format "* DONE E%d\nCLOSED: [2026-05-01 Fri 10:00]\n" i))
                     (number-sequence 1 60) ""))
  "A file of which 62 subtrees are done.")

(defun ost-archive-by-hand (titles)
  "Archive the entries TITLES of a.org by Org's own command."
  (dolist (title titles)
    (ost-open "a.org")
    (re-search-forward (concat "^\\*+ DONE " title "$"))
    (org-archive-subtree)))

(ost-scenario archive-done (list (cons "a.org" ost-done))
  (ost-open "a.org")
  (let ((titles (append '("B" "D") (mapcar (lambda (i) (format "E%d" i)) (number-sequence 1 60)))))
    (ost-cmd 1 (if ost-plain (ost-archive-by-hand titles)
                 (orgstore-archive-done 'buffer)))))

(ost-scenario archive-done-days (list (cons "a.org" ost-done))
  (ost-open "a.org" "E59")
  (ost-cmd 1 (if ost-plain
                 (ost-archive-by-hand (mapcar (lambda (i) (format "E%d" i)) (number-sequence 1 60)))
               (orgstore-archive-done 'buffer 10)))
  (ost-open "a.org" "C")
  (ost-cmd 1 (if ost-plain (ost-archive-by-hand '("D")) (orgstore-archive-done 'subtree))))

(ost-alone archive-done-stopped (list (cons "a.org" ost-done))
  (let* ((count 0)
         (org-archive-hook (list (lambda ()
                                   (when (= 30 (cl-incf count)) (setq quit-flag t))))))
    (ost-open "a.org")
    (ost-cmd 1 (orgstore-archive-done 'buffer))
    (should (= 30 count))
    (should (= 30 (ost-how-many "^:ARCHIVE_TIME:\\|^:ARCHIVE_OLPATH:" 
                               (replace-regexp-in-string ":ARCHIVE_OLPATH:.*" ""
                                                         (ost-disk "a.org_archive")))))
    (ost-cmd 1 (orgstore-archive-done 'buffer))
    (should (= 62 count))
    (ost-cmd 1 (orgstore-undo-last))
    (should (= 30 (ost-how-many "^:ARCHIVE_TIME:" (ost-disk "a.org_archive"))))
    (ost-cmd 1 (orgstore-undo-last))
    (should (equal ost-done (ost-disk "a.org")))))

(provide 'orgstore-setup-tests)
;;; orgstore-setup-tests.el ends here
