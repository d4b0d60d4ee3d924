;;; orgstore-save.el --- Save buffers together  -*- lexical-binding: t; -*-
;; SPDX-License-Identifier: MIT OR Apache-2.0

;;; Commentary:

;; The saves of several buffers are nested: each one runs, by Emacs's own
;; `basic-save-buffer', up to `write-file-functions'; there the next one begins, and
;; within the innermost all files are written.  Then they run to their ends.  So each
;; hook sees what it sees in an ordinary save, and all files are on the disk before
;; the first function of `after-save-hook'.
;;
;; What is written are the bytes that Emacs itself would write.  They are compared
;; with all bytes that the file has at that moment.  Nothing is kept of a file from
;; one save to the next: so a buffer that visits another file by now, a link that
;; leads elsewhere, or a file that was put back can't be taken for what it was.

;;; Code:

(eval-when-compile (require 'cl-lib))
(require 'orgstore-program)
(require 'orgstore-diff)

;;;; Which buffers a command changes

(defvar orgstore--commands nil
  "The commands that go on, the innermost first.
They are lists (DEPTH STEP (BUFFER TICK . SIZE)..): the recursion depth; the
step that is written when the command ends, nil where there is none, t while it
ends; and what the command changed, by what BUFFER was before.")

(defun orgstore--mark ()
  "Return a mark of this buffer, by which a change is seen: (BUFFER TICK . SIZE)."
  (cons (current-buffer) (cons (buffer-chars-modified-tick) (buffer-size))))

(put 'orgstore--before-change 'permanent-local-hook t)

(defun orgstore--before-change (&rest _)
  "Note this buffer as one that a command is to change.
This is the last of `before-change-functions'."
  (with-current-buffer (orgstore--base)
    (when-let* ((command (assq (recursion-depth) orgstore--commands)))
      (unless (assq (current-buffer) (cddr command))
        (push (orgstore--mark) (cddr command))))))

(defun orgstore--watch ()
  "Have the commands be noted that change this buffer."
  (add-hook 'before-change-functions #'orgstore--before-change 100 t))

(defun orgstore--end-watch (buffer)
  "Have the commands that change BUFFER be noted no more."
  (with-current-buffer buffer
    (remove-hook 'before-change-functions #'orgstore--before-change t)))

(defun orgstore--note-visit ()
  "Watch this buffer, if its file is served."
  (when (orgstore--place) (orgstore--watch)))

;;;; The bytes of a save

(defun orgstore--stamp (file)
  "Return what FILE is told from others by, its size first.
These are its size, when it was written and changed, its inode and device."
  (let ((it (file-attributes (file-truename file))))
    (list (or (file-attribute-size it) 0)
          (file-attribute-modification-time it)
          (file-attribute-status-change-time it)
          (file-attribute-inode-number it)
          (file-attribute-device-number it))))

(defun orgstore--plain-coding-p (coding)
  "Whether by CODING Unicode's characters are the bytes that Emacs has for them."
  (and (memq (coding-system-base coding) '(utf-8 undecided prefer-utf-8))
       (eq (coding-system-eol-type coding) 0)))

(defun orgstore--plain-write-p (coding)
  "Whether a save of this widened buffer does nothing to its text but encode it.
CODING is that of the buffer."
  (and enable-multibyte-characters
       (local-variable-p 'buffer-file-coding-system)
       (null (or coding-system-for-write save-buffer-coding-system))
       (null buffer-file-format)
       (null write-region-annotate-functions)
       ;; Else Emacs chooses another one, and may ask.
       (if (eq (coding-system-type coding) 'utf-8)
           (null (unencodable-char-position (point-min) (point-max) coding))
         (= (position-bytes (point-max)) (point-max)))
       (let ((auto (save-excursion
                     (goto-char (point-min))
                     (find-auto-coding buffer-file-name (buffer-size)))))
         (or (null auto)
             (eq (coding-system-base (car auto))
                 (coding-system-base coding))))))

(defun orgstore--encode (text coding)
  "Return the bytes of TEXT by CODING."
  (if (or (= (length text) (string-bytes text))
          (not (orgstore--plain-coding-p coding)))
      (encode-coding-string text coding)
    ;; In a tenth of the time.
    (with-temp-buffer
      (insert text)
      (set-buffer-multibyte nil)
      (buffer-string))))

(defun orgstore--bytes-by-emacs ()
  "Return what `orgstore--text-bytes' does, by a write of Emacs's own.
That is to another file of the same name."
  (let* ((dir (make-temp-file "orgstore-" t))
         (file (expand-file-name (file-name-nondirectory buffer-file-name) dir))
         (write-region-inhibit-fsync t)
         (coding-system-for-write (or save-buffer-coding-system
                                      coding-system-for-write)))
    (unwind-protect
        (progn
          (write-region nil nil file nil 'quiet)
          (let ((coding last-coding-system-used))
            (cons (orgstore--bytes file) coding)))
      (delete-directory dir t))))

(defun orgstore--text-bytes ()
  "Return (BYTES . CODING): what a save of this buffer writes, and by what."
  (save-restriction
    (widen)
    (let ((coding buffer-file-coding-system))
      (if (and coding
               (orgstore--plain-coding-p coding)
               (orgstore--plain-write-p coding))
          (cons (orgstore--encode (buffer-substring-no-properties
                                   (point-min) (point-max))
                                  coding)
                coding)
        (orgstore--bytes-by-emacs)))))

;;;; Bonds

(defvar orgstore--bonds nil
  "Lists of buffers none of which is saved without the others.")

(defun orgstore--bond (buffers)
  "Have BUFFERS be saved together."
  (when (cdr buffers)
    (push (copy-sequence buffers) orgstore--bonds)))

(defun orgstore--bound (buffers)
  "Return BUFFERS and those that are to be saved with them."
  (let ((found (copy-sequence buffers)) (more t))
    (while more
      (setq more nil)
      (dolist (bond orgstore--bonds)
        (when (seq-intersection bond found #'eq)
          (dolist (it bond)
            (when (and (buffer-live-p it) (buffer-modified-p it)
                       (not (memq it found)))
              (setq found (append found (list it)) more t))))))
    found))

(defun orgstore--unbond (buffer)
  "Forget the bonds of BUFFER, which is saved."
  (setq orgstore--bonds
        (seq-filter #'cdr (mapcar (lambda (it)
                                    (seq-filter #'buffer-live-p
                                                (remq buffer it)))
                                  orgstore--bonds))))

;;;; Writing

(cl-defstruct (orgstore--entry (:constructor orgstore--entry-make)
                               (:copier nil))
  "What the save of a buffer writes: the bytes NEW, to FILE, which is PLACE.
STAMP is the file's then, BEGUN the bytes of the text when the step began, or
nil where these were the file's.  EDITS make NEW of the file's bytes; EARLIER
make BEGUN of these, and LATER make NEW of BEGUN.  DONE is set once it is
written."
  place file new stamp begun edits earlier later done)

(cl-defstruct (orgstore--batch (:constructor orgstore--batch-make)
                               (:copier nil))
  "Buffers that are saved together.
QUEUE are those to come, ENTRIES what is to be written, TEXTS the texts before
the step of buffers that were modified then, as pairs (BUFFER . TEXT).
FAILED is the error that ended it, LATE one after the write."
  queue entries texts failed late)

(defvar orgstore--batch nil "The batch that is being saved, or nil.")
(defvar orgstore--saving nil "The buffer whose save was just begun, or nil.")
(defvar orgstore--step nil "The step that goes on, or nil.")
(defvar orgstore--by-emacs nil "Whether Emacs itself is to save served files.")

(define-error 'orgstore-unable "The store" 'orgstore-error)

(defvar orgstore--history nil
  "What was written, newest first: lists (TIME (FILE . EDITS)..).")

(defvar orgstore--keep-history t "Whether what is written is kept for undo.")
(defvar orgstore--told nil "Whether the user was told of several folders.")

(defcustom orgstore-undo-limit 20
  "How many steps are kept for `orgstore-undo-last'."
  :type 'natnum
  :group 'orgstore)

(defun orgstore--entries-gain (entries)
  "Return how many bytes ENTRIES add."
  (apply #'+ (mapcar (lambda (it) (orgstore--gain (orgstore--entry-edits it)))
                     entries)))

(defun orgstore--sorted (list gain)
  "Return LIST with the greatest of the function GAIN first."
  (sort (copy-sequence list)
        (lambda (a b) (> (funcall gain a) (funcall gain b)))))

(defun orgstore--order (entries)
  "Return ENTRIES as lists of those that are one record: of one folder.
The one that gains most text comes first: so a crash between two of them
doubles text and never loses it."
  (let (records)
    (pcase-dolist (`(,_ . ,rest)
                   (seq-group-by (lambda (it) (car (orgstore--entry-place it)))
                                 (orgstore--sorted
                                  entries (lambda (it)
                                            (orgstore--entries-gain (list it))))))
      ;; The program takes 256 names at once.
      (while rest
        (push (seq-take rest 256) records)
        (setq rest (nthcdr 256 rest))))
    (orgstore--sorted (nreverse records) #'orgstore--entries-gain)))

(defun orgstore--path (entry)
  "Return the file that the program writes for ENTRY."
  (pcase-let ((`(,root . ,name) (orgstore--entry-place entry)))
    (concat root name)))

(defun orgstore--find-edits (entry)
  "Set the edits of ENTRY, by what its file has now."
  (let ((path (orgstore--path entry)))
    ;; Other saves of the batch may have asked the user meanwhile.
    (unless (equal (orgstore--stamp path) (orgstore--entry-stamp entry))
      (orgstore--fail "Nothing is saved: %s changed on the disk meanwhile"
                      (abbreviate-file-name (orgstore--entry-file entry))))
    (let* ((old (orgstore--bytes path))
           (new (orgstore--entry-new entry))
           (begun (orgstore--entry-begun entry))
           (edits (orgstore--edits old new)))
      (setf (orgstore--entry-edits entry) edits
            (orgstore--entry-earlier entry) (and begun
                                                 (orgstore--edits old begun))
            (orgstore--entry-later entry) (if begun (orgstore--edits begun new)
                                            edits)))))

(defun orgstore--there-p (entry)
  "Whether the file of ENTRY is as it is to be."
  (string= (orgstore--bytes (orgstore--path entry))
           (orgstore--entry-new entry)))

(defun orgstore--check-written (entries run)
  "Signal an error unless ENTRIES, of one folder, are on the disk after RUN.
RUN failed, and they may be there all the same.  Before anybody looks at the
files the store is opened once more."
  (let* ((inhibit-quit t)
         (place (orgstore--entry-place (car entries)))
         (trouble (orgstore--finish place)))
    (cond
     (trouble (orgstore--fail "%s" trouble))
     ((not (seq-every-p #'orgstore--there-p entries))
      (signal (if (string-match-p "TooLarge" (cdr run)) 'orgstore-unable
                'orgstore-error)
              (list (format "Nothing is saved (%s): %s"
                            (mapconcat (lambda (it)
                                         (cdr (orgstore--entry-place it)))
                                       entries ", ")
                            (orgstore--reason run (car place)))))))))

(defun orgstore--write-folder (entries)
  "Write ENTRIES, of one folder, by one record."
  (let ((lines (mapcan (lambda (it)
                         (mapcar (lambda (edit)
                                   (orgstore--line
                                    (cdr (orgstore--entry-place it)) edit))
                                 (orgstore--entry-edits it)))
                       entries)))
    (when lines
      (let ((run (orgstore--run
                  (car (orgstore--entry-place (car entries)))
                  (mapcar (lambda (it) (cdr (orgstore--entry-place it)))
                          entries)
                  (concat (string-join lines) "settle\n"))))
        (unless (and (equal (car run) 0)
                     (string-match-p (format "^safe %d$" (length lines))
                                     (cdr run)))
          (orgstore--check-written entries run))))
    (dolist (it entries)
      ;; An empty file is none to the program.
      (unless (file-exists-p (orgstore--entry-file it))
        (write-region "" nil (orgstore--entry-file it) nil 'quiet))
      (setf (orgstore--entry-done it) t))))

(defun orgstore--remember (entries)
  "Note in `orgstore--history' what ENTRIES changed.
What was changed before their step began can be taken back after it."
  (when orgstore--keep-history
    (dolist (edits '(orgstore--entry-earlier orgstore--entry-later))
      (when-let* ((step (seq-filter
                         #'cdr (mapcar (lambda (it)
                                         (cons (orgstore--entry-file it)
                                               (funcall edits it)))
                                       entries))))
        (push (cons (current-time) step) orgstore--history)))
    (setq orgstore--history
          (seq-take orgstore--history orgstore-undo-limit))))

(defun orgstore--commit (batch)
  "Write the entries of BATCH."
  (let ((entries (reverse (orgstore--batch-entries batch))))
    (mapc #'orgstore--find-edits entries)
    (let ((folders (orgstore--order entries)))
      (when (and (cdr folders) (not orgstore--told))
        (setq orgstore--told t)
        (message "Files of several folders, or more than 256, were changed: \
each folder is a step of its own, the one that gains text first"))
      (unwind-protect
          (mapc #'orgstore--write-folder folders)
        (orgstore--remember (seq-filter #'orgstore--entry-done entries))))))

;;;; Saving

(defun orgstore--save-next (batch)
  "Save the next buffer of BATCH, and within its save those after it."
  (let ((buffer (pop (orgstore--batch-queue batch)))
        (count (length (orgstore--batch-entries batch))))
    (condition-case err
        (cond
         ((null buffer) (orgstore--commit batch))
         ((not (buffer-live-p buffer)) (orgstore--save-next batch))
         (t
          (with-current-buffer buffer
            (let ((orgstore--batch batch)
                  (orgstore--saving buffer))
              (basic-save-buffer)))
          ;; Another function of the user's may have written it.
          (when (and (= count (length (orgstore--batch-entries batch)))
                     (null (orgstore--batch-failed batch)))
            (orgstore--save-next batch))))
      ((error quit)
       (if (seq-some #'orgstore--entry-done (orgstore--batch-entries batch))
           (unless (orgstore--batch-late batch)
             (setf (orgstore--batch-late batch) err))
         (unless (orgstore--batch-failed batch)
           (setf (orgstore--batch-failed batch) err)))))))

(defun orgstore--to-save-p (buffer)
  "Whether BUFFER has anything to save."
  (and (buffer-live-p buffer)
       (or (buffer-modified-p buffer)
           (not (file-exists-p (buffer-file-name buffer))))))

(defun orgstore--save-by-store (buffers texts)
  "Save BUFFERS in one step; TEXTS are as in `orgstore--batch'."
  (let* ((batch (orgstore--batch-make :queue buffers :texts texts))
         (max-lisp-eval-depth (+ max-lisp-eval-depth (* 40 (length buffers))))
         ;; Else each copy of a large text is a collection.
         (gc-cons-threshold (max gc-cons-threshold 100000000))
         (orgstore--step nil))
    (with-suppressed-warnings ((obsolete max-specpdl-size))
      (let ((max-specpdl-size (+ max-specpdl-size (* 60 (length buffers)))))
        (save-current-buffer (orgstore--save-next batch))))
    (when-let* ((err (or (orgstore--batch-failed batch)
                         (orgstore--batch-late batch))))
      (signal (car err) (cdr err)))))

(defun orgstore--save-by-emacs (buffers err)
  "Have Emacs itself save BUFFERS, if the user wants it.
ERR says why the store can't."
  (let ((names (mapconcat #'buffer-name buffers ", ")))
    (unless (and (not noninteractive)
                 (yes-or-no-p (format "%s.  Save %s as Emacs does? "
                                      (cadr err) names)))
      (signal (car err) (cdr err)))
    (let ((orgstore--by-emacs t))
      (dolist (it buffers)
        (with-current-buffer it
          (basic-save-buffer)
          (unless (buffer-modified-p) (orgstore--unbond it)))))))

(defun orgstore--settle (buffer)
  "Take BUFFER for saved, if its file has changed, and has its text now.
So it is after a step was cut short and then finished."
  (with-current-buffer buffer
    (when (and (buffer-modified-p)
               (not (verify-visited-file-modtime))
               (file-exists-p buffer-file-name)
               (string= (orgstore--bytes buffer-file-name)
                        (car (orgstore--text-bytes))))
      (set-visited-file-modtime)
      (set-buffer-modified-p nil)
      (orgstore--unbond buffer))))

(defun orgstore--settle-all (&rest _)
  "Take each buffer for saved whose served file has changed, and has its text."
  (dolist (it (buffer-list))
    (when (and (buffer-file-name it) (buffer-modified-p it)
               (orgstore--place it))
      (orgstore--settle it))))

(defun orgstore--save-together (buffers &optional texts)
  "Save BUFFERS, and those that are bound to them, in one step.
TEXTS are as in `orgstore--batch'.  Where the store can't, the user is asked
whether Emacs is to save them, each by itself."
  (let ((all (orgstore--bound (seq-filter #'orgstore--to-save-p buffers))))
    ;; The program would finish it before it takes a line; Emacs shall see that.
    (dolist (it all)
      (when-let* ((trouble (orgstore--finish (orgstore--place it))))
        (orgstore--fail "%s" trouble)))
    (mapc #'orgstore--settle all)
    (condition-case err
        (when-let* ((these (seq-filter #'orgstore--to-save-p all)))
          (condition-case why (orgstore--find-program)
            (orgstore-error (signal 'orgstore-unable (cdr why))))
          (orgstore--save-by-store these texts))
      (orgstore-unable
       (orgstore--save-by-emacs (seq-filter #'orgstore--to-save-p all) err)))))

(defun orgstore--prepare-write ()
  "Do what a save does to the file before it is written.
Return the modes that the file is to have afterwards, or nil."
  (let ((modes (file-modes buffer-file-name)))
    (prog1
        (unless (or (null modes) (file-writable-p buffer-file-name))
          (unless (yes-or-no-p
                   (format "File %s is write-protected; try to save anyway? "
                           (file-name-nondirectory buffer-file-name)))
            (error "Attempt to save to a file that you aren't allowed to write"))
          modes)
      ;; A file that was renamed is absent until the step is written; one that
      ;; is empty may have been made by this step.
      (unless (or buffer-backed-up
                  (= 0 (car (orgstore--stamp buffer-file-name))))
        (let ((backup-by-copying t)) (backup-buffer)))
      (unless (or (null modes) (file-writable-p buffer-file-name))
        (set-file-modes buffer-file-name (logior modes 128))))))

(defun orgstore--make-entry (batch place)
  "Return what the save of this buffer writes at PLACE, as a part of BATCH.
Its coding system comes after it: (ENTRY . CODING)."
  (pcase-let ((`(,bytes . ,coding) (orgstore--text-bytes))
              (begun (alist-get (current-buffer) (orgstore--batch-texts batch)))
              (entry (orgstore--entry-make :place place :file buffer-file-name)))
    (setf (orgstore--entry-new entry) bytes
          (orgstore--entry-begun entry) (and begun
                                             (orgstore--encode begun coding))
          (orgstore--entry-stamp entry) (orgstore--stamp
                                         (orgstore--path entry)))
    (cons entry coding)))

(defun orgstore--write ()
  "Write this buffer's file by the store, where it is served.
This is the last of `write-file-functions'.  Into a folder that isn't there yet
Emacs writes it, which asks whether it is to be made."
  (when-let* (((not orgstore--by-emacs))
              (place (orgstore--place))
              ((file-directory-p (car place))))
    (pcase-let* ((batch (if (and orgstore--batch
                                 (eq orgstore--saving (current-buffer)))
                            orgstore--batch
                          (orgstore--batch-make)))
                 (orgstore--batch nil)
                 (orgstore--saving nil)
                 (modes (orgstore--prepare-write))
                 (tick (buffer-chars-modified-tick))
                 (`(,entry . ,coding) (orgstore--make-entry batch place)))
      (unwind-protect
          (progn
            (push entry (orgstore--batch-entries batch))
            (unless (orgstore--batch-failed batch)
              (orgstore--save-next batch)))
        (when modes (set-file-modes buffer-file-name modes)))
      (unless (orgstore--entry-done entry)
        (let ((err (or (orgstore--batch-failed batch)
                       (orgstore--batch-late batch)
                       '(orgstore-error "Nothing is saved"))))
          (signal (car err) (cdr err))))
      (orgstore--written entry tick coding)
      t)))

(defun orgstore--written (entry tick coding)
  "Note that the text of TICK of this buffer is on the disk, by CODING.
ENTRY was written.  These are what `write-region' does for the buffer."
  ;; Else another program wrote it too, which Emacs is to notice.
  (when (= (length (orgstore--entry-new entry))
           (car (orgstore--stamp buffer-file-name)))
    (set-visited-file-modtime))
  (orgstore--watch)
  (when (= tick (buffer-chars-modified-tick))
    (set-buffer-modified-p nil)
    (orgstore--unbond (current-buffer)))
  (setq buffer-saved-size (buffer-size))
  (when buffer-file-coding-system-explicit
    (setcar buffer-file-coding-system-explicit coding))
  (setq last-coding-system-used coding)
  (unless (or noninteractive save-silently)
    (message "Wrote %s" buffer-file-name)))

(provide 'orgstore-save)
;;; orgstore-save.el ends here
