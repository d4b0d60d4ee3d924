;;; orgstore-recover.el --- Changes that were cut short  -*- lexical-binding: t; -*-
;; SPDX-License-Identifier: MIT OR Apache-2.0

;;; Commentary:

;; A crash in the middle of a step leaves a journal whose record says what the step
;; was to write.  The next opening finishes it, if nothing speaks against that.
;;
;; This file reads such a record, says in words what it is, and has the command
;; `orgstore-recover', by which the user decides where the program refuses.  What is
;; written over or given up is copied and synced first.
;;
;; A record is somebody else's as long as it isn't known to be the store's own: it is
;; read piece by piece, its numbers are checked, and its bytes are shown escaped.

;;; Code:

(require 'seq)
(require 'orgstore-program)
(eval-when-compile (require 'cl-lib) (require 'rx))

;;;; Reading a record

(define-error 'orgstore-damaged "The record is damaged")

(cl-defstruct (orgstore--change (:constructor orgstore--change-make)
                                (:copier nil))
  "A change that was cut short in the folder ROOT.
JOURNAL is the file that holds it, TIME when that was written, WRITES what it was
to write, DAMAGE in words why the rest of it can't be read, or nil.  TEXT says in
a line what it is: once it is finished the journal may be another's."
  root journal time writes damage text)

(cl-defstruct (orgstore--write (:constructor orgstore--write-make)
                               (:copier nil))
  "What a change was to write in the file NAME, which had OLD bytes, or nil where
the record doesn't say, and was to have FINAL.  PATCHES are lists (FROM COUNT AT):
COUNT bytes, which stand in the journal from AT on, were to go to FROM.  TRUE is
the file that the name led to when the record was read, STATE what that was then."
  name old final patches true state)

(cl-defstruct (orgstore--reader (:constructor orgstore--reader-make)
                                (:copier nil))
  "FILE is read at AT, up to END.  PIECE is what it holds from START on."
  file (at 0) end (piece "") (start 0))

(defun orgstore--damaged (text &rest args)
  "Signal that a record is damaged: TEXT, formatted with ARGS."
  (signal 'orgstore-damaged (list (apply #'format text args))))

(defun orgstore--skip (reader count)
  "Pass over COUNT bytes of READER, and return where they begin."
  (prog1 (orgstore--reader-at reader)
    (when (> (cl-incf (orgstore--reader-at reader) count)
             (orgstore--reader-end reader))
      (orgstore--damaged "it ends early"))))

(defun orgstore--take (reader count)
  "Return the next COUNT bytes of READER, at most some hundreds."
  (let* ((at (orgstore--skip reader count))
         (front (- at (orgstore--reader-start reader))))
    (unless (<= 0 front (+ front count)
                (length (orgstore--reader-piece reader)))
      (setf (orgstore--reader-piece reader)
            (orgstore--bytes (orgstore--reader-file reader) at
                             (min (+ at 4096) (orgstore--reader-end reader)))
            (orgstore--reader-start reader) at
            front 0))
    (substring (orgstore--reader-piece reader) front (+ front count))))

(defun orgstore--number (reader size &optional least most)
  "Return the next number of READER, of SIZE bytes, which is from LEAST to MOST."
  (let ((number 0))
    (mapc (lambda (it) (setq number (+ (* 256 number) it)))
          (orgstore--take reader size))
    (unless (<= (or least 0) number (or most number))
      (orgstore--damaged "a number is out of range"))
    number))

(defun orgstore--read-patch (reader from count final)
  "Return the patch of COUNT bytes at FROM that READER is at.
The file was to have FINAL bytes."
  (when (> (+ from count) final)
    (orgstore--damaged "a patch ends after its file"))
  (list from count (orgstore--skip reader count)))

(defun orgstore--read-patches (reader final)
  "Return the patches that READER is at, of a file of FINAL bytes."
  (let ((many (orgstore--number reader 4 1 1000)) (least 0) patches)
    (dotimes (_ many)
      (let ((from (orgstore--number reader 8 least final))
            (count (orgstore--number reader 8 (if (= many 1) 0 1) final)))
        (push (orgstore--read-patch reader from count final) patches)
        (setq least (+ from count))))
    (nreverse patches)))

(defun orgstore--read-name (reader)
  "Return the name that READER is at, as text."
  (let* ((bytes (orgstore--take reader (orgstore--number reader 2 1 1008)))
         (name (decode-coding-string bytes 'utf-8-unix)))
    ;; Bytes that aren't UTF-8 are characters above all others.
    (unless (and (orgstore--name-p name)
                 (seq-every-p (lambda (it) (<= it #x10ffff)) name))
      (orgstore--damaged "a name is no file name"))
    name))

(defun orgstore--read-write (reader version)
  "Return what READER, of a record of VERSION, is at: the part of one file."
  (let* ((name (orgstore--read-name reader))
         (from (and (= version 1) (orgstore--number reader 8)))
         (final (orgstore--number reader 8 0
                                  (if (= version 1) 16777216 67108864)))
         (old (and (= version 3) (orgstore--number reader 8))))
    (when (= version 3)
      (dotimes (_ 2)
        (orgstore--take reader (orgstore--number reader 1 0 32))))
    (orgstore--write-make
     :name name :final final :old old
     :patches (if from
                  (list (orgstore--read-patch
                         reader from (orgstore--number reader 8 0 final) final))
                (orgstore--read-patches reader final)))))

(defun orgstore--read-header (reader size)
  "Return the version of the journal of SIZE bytes that READER begins.
READER ends with the record then."
  (setf (orgstore--reader-end reader) 16)
  (orgstore--skip reader 1)
  (unless (equal (orgstore--take reader 4) "ORGJ")
    (orgstore--damaged "it doesn't begin as a journal"))
  (let ((version (orgstore--number reader 1 1 3)))
    (orgstore--number reader 2 0 0)
    (let ((length (orgstore--number reader 8)))
      (when (> (+ 16 length) size)
        (orgstore--damaged "it is shorter than it says"))
      (setf (orgstore--reader-end reader) (+ 16 length)))
    version))

(defun orgstore--read-record (change)
  "Read the journal of CHANGE, and set its writes and its damage."
  (let* ((journal (orgstore--change-journal change))
         (reader (orgstore--reader-make :file journal)))
    (condition-case err
        (let ((version (orgstore--read-header
                        reader (file-attribute-size
                                (file-attributes journal)))))
          (dotimes (_ (orgstore--number reader 4 1 512))
            (let ((write (orgstore--read-write reader version)))
              (when (assoc (orgstore--write-name write)
                           (orgstore--change-writes change))
                (orgstore--damaged "a file stands in it twice"))
              (push (cons (orgstore--write-name write) write)
                    (orgstore--change-writes change))))
          (when (< (orgstore--reader-at reader) (orgstore--reader-end reader))
            (orgstore--damaged "it has bytes left over")))
      (orgstore-damaged (setf (orgstore--change-damage change) (cadr err)))
      ;; It was cut, or can't be read.
      ((args-out-of-range file-error)
       (setf (orgstore--change-damage change) "it can't be read")))
    (setf (orgstore--change-writes change)
          (nreverse (mapcar #'cdr (orgstore--change-writes change))))))

(defun orgstore--look-at (write root)
  "Note in WRITE which file its name leads to in ROOT, and what that is."
  (let* ((true (orgstore--true-name (orgstore--write-name write) root))
         (it (file-attributes true)))
    (setf (orgstore--write-true write) true
          (orgstore--write-state write)
          (and it (list (file-attribute-size it)
                        (file-attribute-modification-time it)
                        (file-attribute-inode-number it)
                        (substring (file-attribute-modes it) 0 1))))))

(defun orgstore--unfinished (root &optional journal)
  "Return the change that was cut short in ROOT.
Its record is read from JOURNAL, else from the journal of ROOT."
  (let* ((file (orgstore--journal root))
         (change (orgstore--change-make
                  :root root :journal (or journal file)
                  :time (file-attribute-modification-time
                         (file-attributes file)))))
    (orgstore--read-record change)
    (dolist (it (orgstore--change-writes change))
      (orgstore--look-at it root))
    (setf (orgstore--change-text change) (orgstore--describe change))
    change))

;;;; What it is, in words

(defun orgstore--names (change)
  "Return the names of the files of CHANGE."
  (mapcar #'orgstore--write-name (orgstore--change-writes change)))

(defun orgstore--patch-bytes (change patch &optional most)
  "Return the bytes of PATCH of CHANGE, at most MOST of them."
  (pcase-let ((`(,_ ,count ,at) patch))
    (orgstore--bytes (orgstore--change-journal change) at
                     (+ at (min count (or most count))))))

(defun orgstore--archives-p (change)
  "Whether CHANGE archives: it writes a file and its archive, and there the time."
  (let ((names (orgstore--names change)) found)
    (dolist (it (orgstore--change-writes change) found)
      (let* ((name (orgstore--write-name it))
             (own (string-remove-suffix "_archive" name)))
        (when (and (not (equal own name)) (member own names))
          (dolist (patch (orgstore--write-patches it))
            (when (string-search ":ARCHIVE_TIME:"
                                 (orgstore--patch-bytes change patch 65536))
              (setq found t))))))))

(defun orgstore--command-of (change)
  "Return the command of this Emacs that made CHANGE, or nil."
  (pcase orgstore--cut-run
    (`(,(pred (equal (orgstore--change-root change)))
       ,names ,(and (pred symbolp) command))
     (let ((left (orgstore--names change)))
       (dolist (it names) (setq left (remove it left)))
       (and left (setq command nil))
       command))))

(defun orgstore--time-text (time)
  "Return TIME in words, with its day if that isn't today."
  (let ((day (format-time-string "%Y-%m-%d" time)))
    (concat (unless (equal day (format-time-string "%Y-%m-%d"))
              (concat day " "))
            (format-time-string "%H:%M" time))))

(defun orgstore--describe (change)
  "Return in a line what CHANGE is, of when, and of which files."
  (format "%s of %s: %s"
          (cond ((orgstore--archives-p change) "archive")
                ((orgstore--command-of change))
                (t "change"))
          (orgstore--time-text (orgstore--change-time change))
          (cond ((null (orgstore--change-writes change)) "no files")
                (t (orgstore--escaped
                    (string-join (sort (orgstore--names change) #'string<)
                                 ", "))))))

(defun orgstore--print-patch (change patch)
  "Print the place of PATCH of CHANGE, and its first lines."
  (pcase-let ((`(,from ,count ,_) patch))
    (princ (format "    from byte %d on, %d bytes\n" from count))
    (let ((lines (split-string (orgstore--patch-bytes change patch 400) "\n"))
          (most 3))
      (while (and lines (> most 0))
        (unless (and (null (cdr lines)) (equal (car lines) ""))
          (princ (format "      | %s\n" (truncate-string-to-width
                                         (orgstore--decoded (car lines)) 70))))
        (setq lines (cdr lines) most (1- most))))))

(defun orgstore--outside-p (change write)
  "Whether the file that WRITE of CHANGE is for is none of its folder's store."
  (let ((true (orgstore--write-true write))
        (root (file-truename (orgstore--change-root change))))
    (not (and (equal root (orgstore--root (file-name-directory true)))
              (orgstore--name-p (substring true (length root)))))))

(defun orgstore--link (change write)
  "Return the file that a link leads to for which WRITE of CHANGE is, or nil."
  (and (file-symlink-p (expand-file-name (orgstore--write-name write)
                                         (orgstore--change-root change)))
       (orgstore--escaped
        (abbreviate-file-name (orgstore--write-true write)))))

(defun orgstore--print-write (change write)
  "Print what WRITE of CHANGE is to write."
  (let* ((link (orgstore--link change write))
         (patches (orgstore--write-patches write))
         (more (nthcdr 20 patches)))
    (princ (format "\n  %s: %s; %d bytes when it is finished\n"
                   (orgstore--escaped (orgstore--write-name write))
                   (pcase (orgstore--write-state write)
                     ('nil "it isn't there")
                     (`(,size ,_ ,_ "-") (format "it has %d bytes" size))
                     (_ "it is no plain file"))
                   (orgstore--write-final write)))
    (when link
      (princ (format "    A LINK TO %s%s\n" link
                     (if (orgstore--outside-p change write)
                         ", NO FILE OF THIS STORE" ""))))
    (dolist (it (seq-take patches 20)) (orgstore--print-patch change it))
    (when more (princ (format "    and %d more\n" (length more))))))

(defun orgstore--show (change)
  "Show what CHANGE is to write."
  (with-help-window "*orgstore recover*"
    (princ (format "A change in %s was cut short and isn't finished:\n%s\n"
                   (abbreviate-file-name (orgstore--change-root change))
                   (orgstore--change-text change)))
    (dolist (it (orgstore--change-writes change))
      (orgstore--print-write change it))
    (when-let* ((damage (orgstore--change-damage change)))
      (princ (format "\n  The record is damaged: %s.\n" damage)))))

;;;; Copies, made before anything is written over or given up

(defun orgstore--free-name (root name)
  "Return the file NAME of ROOT, or if it is there NAME with a number."
  (let ((file (expand-file-name name root)) (number 1))
    (while (or (file-exists-p file) (file-symlink-p file))
      (setq number (1+ number)
            file (expand-file-name
                  (format "%s-%d%s" (file-name-sans-extension name) number
                          (file-name-extension name t))
                  root)))
    file))

(defun orgstore--sync (root files)
  "Have FILES and their entries in ROOT be on the device, or signal an error."
  (let ((default-directory root))
    (unless (equal 0 (apply #'call-process "sync" nil nil nil "--" "."
                            files))
      (orgstore--fail "The copies can't be synced: %s"
                      (string-join (mapcar #'abbreviate-file-name files)
                                   ", ")))))

(defun orgstore--copies (change stamp)
  "Return what is to be copied before CHANGE is finished, by the time STAMP.
That is a list of pairs (FILE . COPY), one for each file that is written over."
  (let (copies)
    (dolist (it (orgstore--change-writes change) (nreverse copies))
      (pcase (orgstore--write-state it)
        ('nil nil)
        (`(,_ ,_ ,_ "-")
         (push (cons (orgstore--write-true it)
                     (orgstore--free-name
                      (orgstore--change-root change)
                      (format "%s.before-%s" (orgstore--write-name it) stamp)))
               copies))
        (_ (orgstore--fail "%s leads to no plain file"
                           (orgstore--write-name it)))))))

(defun orgstore--check-same (change)
  "Signal an error unless CHANGE, its links and its files are as they were shown."
  (let* ((root (orgstore--change-root change))
         (now (and (orgstore--gate-open-p root) (orgstore--unfinished root))))
    (unless (and now
                 (equal (orgstore--change-writes now)
                        (orgstore--change-writes change))
                 (equal (orgstore--change-damage now)
                        (orgstore--change-damage change)))
      (orgstore--fail "Something in %s was changed meanwhile, and nothing was \
done: do M-x orgstore-recover again" (abbreviate-file-name root)))))

(defun orgstore--same-bytes-p (a b)
  "Whether the files A and B hold the same bytes."
  (let ((size (file-attribute-size (file-attributes a))) (at 0) (piece 1048576))
    (and (= size (file-attribute-size (file-attributes b)))
         (progn
           (while (and (< at size)
                       (equal (orgstore--bytes a at (min size (+ at piece)))
                              (orgstore--bytes b at (min size (+ at piece)))))
             (setq at (+ at piece)))
           (>= at size)))))

(defun orgstore--safely (change name option files make)
  "Call MAKE to make FILES, sync them, and run the program with OPTION.
That is over the folder of CHANGE, for its file NAME.  If FILES can't be
made and synced they are deleted, and the program isn't run."
  (let ((root (orgstore--change-root change)) made)
    (unwind-protect
        (progn
          (funcall make)
          (orgstore--sync root files)
          (orgstore--check-same change)
          (setq made t))
      (unless made (mapc (lambda (it) (ignore-errors (delete-file it))) files)))
    (orgstore--decide change name option)))

(defun orgstore--decide (change name option)
  "Run the program with OPTION over the folder of CHANGE, for its file NAME."
  (let* ((root (orgstore--change-root change))
         (run (orgstore--run root (list name) nil option)))
    (pcase run
      (`(0 . ,_) nil)
      (`(2 . ,_)
       (orgstore--fail "The program %s is older than this package, which needs \
`%s': do ./install anew" orgstore-program option))
      (_ (orgstore--fail "The change in %s %s: %s" (abbreviate-file-name root)
                         (if (orgstore--gate-open-p root) "isn't finished"
                           "is settled, but not by this program")
                         (orgstore--reason run root))))))

(defun orgstore--adopt (change name)
  "Finish CHANGE over what other programs wrote, for the file NAME.
Each file that is written over is copied before."
  (let* ((copies (orgstore--copies change
                                   (format-time-string "%Y%m%d-%H%M%S")))
         (files (mapcar #'cdr copies)))
    (orgstore--safely change name "--adopt" files
                      (lambda ()
                        (pcase-dolist (`(,file . ,copy) copies)
                          (copy-file file copy nil t))))
    (orgstore--note-finished (orgstore--change-root change) change)
    (when files
      (message "Finished: %s.  The files before: %s"
               (cdar orgstore--finished)
               (mapconcat #'file-name-nondirectory files ", ")))))

(defun orgstore--finish-asked (change name)
  "Finish CHANGE, for the file NAME, as the user wants.
If the program doesn't by itself, it is made to."
  (let* ((root (orgstore--change-root change))
         (run (orgstore--run root (list name))))
    (pcase run
      (`(0 . ,_) (orgstore--note-finished root change))
      (`(3 . ,(rx "open: " (or "Changed" "Outside") " "))
       (orgstore--adopt change name))
      (_ (orgstore--fail "The change in %s isn't finished: %s"
                         (abbreviate-file-name root)
                         (orgstore--reason run root))))))

;;;; What a record holds, as an Org file

(defun orgstore--holds (file bytes &optional from)
  "Return where FILE has BYTES, or nil; with FROM, whether it has them there."
  (let* ((it (file-attributes (file-truename file)))
         (size (file-attribute-size it)))
    (when (and it (string-prefix-p "-" (file-attribute-modes it))
               (<= size 67108864))
      (if from (and (<= (+ from (length bytes)) size)
                    (equal bytes (orgstore--bytes file from
                                                  (+ from (length bytes))))
                    from)
        (string-search bytes (orgstore--bytes file))))))

(defun orgstore--held-text (change write from bytes)
  "Return in words which file has BYTES, those of a patch of WRITE of CHANGE.
They were to go to FROM.  A few bytes may be found anywhere by chance."
  (let* ((own (orgstore--write-name write))
         (names (cons own (remove own (orgstore--names change))))
         (path (lambda (it)
                 (expand-file-name it (orgstore--change-root change))))
         found at)
    (cond
     ((equal bytes "") "no bytes: the file was to be cut")
     ((orgstore--holds (funcall path own) bytes from)
      (format "%s has them there" own))
     ((< (length bytes) 16) (format "%s hasn't got them there" own))
     (t
      (while (and names (not found))
        (if (setq at (orgstore--holds (funcall path (car names)) bytes))
            (setq found (format "%s has them, from byte %d on" (car names) at))
          (setq names (cdr names))))
      (or found "no file has them")))))

(defun orgstore--insert-patch (change write patch)
  "Insert the bytes of PATCH, of WRITE of CHANGE, as fixed-width lines."
  (let* ((bytes (orgstore--patch-bytes change patch))
         (held (orgstore--held-text change write (car patch) bytes)))
    (insert (encode-coding-string
             (format "** From byte %d on, %d bytes; %s\n" (car patch)
                     (length bytes) held)
             'utf-8-unix))
    (unless (equal bytes "")
      (insert ": ")
      (let ((end (point-marker)))
        (save-excursion (insert bytes) (set-marker end (point)))
        (while (search-forward "\n" (1- end) t) (insert ": "))
        (goto-char end))
      (unless (bolp)
        (insert "\nThe last line has no newline.\n")))))

(defun orgstore--write-record (change file kept)
  "Write all that is in the record of CHANGE to FILE.
KEPT is the copy of its journal."
  (write-region "" nil file nil 'quiet nil 'excl)
  (with-temp-buffer
    (set-buffer-multibyte nil)
    (cl-flet ((tell (text &rest args)
                (insert (encode-coding-string (apply #'format text args)
                                              'utf-8-unix))))
      (tell "#+TITLE: What an unfinished change held\n
A change in %s was cut short on %s, and then forgotten.\nIts files stay as they \
were found.  Below are the bytes that it was to write,\nin lines that begin with \
a colon and a blank.  Its journal is kept as\n%s.\n"
            (abbreviate-file-name (orgstore--change-root change))
            (format-time-string "%Y-%m-%d at %H:%M" (orgstore--change-time change))
            (file-name-nondirectory kept))
      (when-let* ((damage (orgstore--change-damage change)))
        (tell "The record is damaged: %s.  What follows is what could be read.\n"
              damage))
      (dolist (it (orgstore--change-writes change))
        (tell "* %s\n%sIt has %s bytes, and was to have %d.\n"
              (orgstore--write-name it)
              (if-let* ((link (orgstore--link change it)))
                  (format "It is a link to %s.\n" link)
                "")
              (or (car (orgstore--write-state it)) "no")
              (orgstore--write-final it))
        (dolist (patch (orgstore--write-patches it))
          (orgstore--insert-patch change it patch)
          (orgstore--append file)))
      (orgstore--append file))))

(defun orgstore--append (file)
  "Move what is in this buffer to the end of FILE."
  (let ((coding-system-for-write 'no-conversion))
    (write-region nil nil file t 'quiet)
    (erase-buffer)))

(defun orgstore--forget (change name)
  "Forget CHANGE, for the file NAME, and keep its record beside the files.
Nothing is forgotten before both copies are on the device."
  (let* ((root (orgstore--change-root change))
         (journal (orgstore--change-journal change))
         (stamp (format-time-string "%Y%m%d-%H%M%S"))
         (kept (orgstore--free-name
                root (concat "orgstore.journal.forgotten-" stamp)))
         (file (orgstore--free-name root
                                    (format "unfinished-%s.org" stamp))))
    (orgstore--safely
     change name "--forget" (list kept file)
     (lambda ()
       (with-file-modes #o600
         (copy-file journal kept nil t)
         (orgstore--write-record (orgstore--unfinished root kept) file kept))
       (unless (orgstore--same-bytes-p journal kept)
         (orgstore--fail "%s was changed meanwhile, and nothing was done"
                         (abbreviate-file-name journal)))))
    (find-file-other-window file)
    (message "The change in %s is forgotten.  %s has what it held"
             (abbreviate-file-name root) (file-name-nondirectory file))))

;;;; The command

(defun orgstore--folder-here ()
  "Return (ROOT . NAME) of this buffer's file, or of its folder with no NAME."
  (or (orgstore--place (orgstore--base))
      (let ((dir (and (null buffer-file-name)
                      (not (file-remote-p default-directory))
                      (file-truename default-directory))))
        (and dir (orgstore--served-p dir) (list (orgstore--root dir))))
      (if-let* ((folder (orgstore--foreign-folder buffer-file-name)))
          (user-error "%s is of another owner, and isn't served: add it to \
`orgstore-directory' if you trust what is in it"
                      (abbreviate-file-name folder))
        (user-error "This buffer visits no served file"))))

(defun orgstore--ask (change)
  "Ask the user what is to become of CHANGE, and return the key of the answer."
  (car (read-multiple-choice
        "This change was cut short:"
        `(,@(unless (orgstore--change-damage change)
              '((?f "finish it" "Write what is shown.  If another program \
changed a file since, or a link leads out of the folder, the files are copied \
first: they are written over.")))
          (?k "keep and forget it" "Leave the files as they are.  What the \
change holds is written to a new Org file first, and its journal is copied.")
          (?n "do nothing" "Leave all as it is.")))))

;;;###autoload
(defun orgstore-recover ()
  "Show the change that was cut short in the folder of this buffer, and end it.
You are asked whether it is to be finished, or forgotten with what it holds kept
beside the files."
  (interactive)
  (pcase-let* ((`(,root . ,name) (orgstore--folder-here))
               (problem (orgstore--journal-problem root)))
    (when problem (user-error "%s" problem))
    (if (not (orgstore--gate-open-p root))
        (message "The files in %s are whole" (abbreviate-file-name root))
      (let* ((change (orgstore--unfinished root))
             (name (or name (car (orgstore--names change)) "a.org")))
        (orgstore--show change)
        (pcase (orgstore--ask change)
          (?f (orgstore--finish-asked change name))
          (?k (orgstore--forget change name))
          (_ (message "The change in %s isn't finished"
                      (abbreviate-file-name root))))))))

(provide 'orgstore-recover)
;;; orgstore-recover.el ends here
