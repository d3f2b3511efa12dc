      *> A REC record of a reconciliation file (Chart 0-6, 245 bytes).
      *> Written from layouts.json; not to be edited. To be copied
      *> below an item of level 01 to 04. Other names in front come by
      *> COPY "fantanolive-rec.cpy"
      *>     REPLACING LEADING ==REC-== BY ==OTHER-==.
      *> Digits (PIC 9) are to be read in the program's own characters:
      *> turn a record from EBCDIC first.
           05  REC-MARK PIC X(3).
           05  REC-STATE PIC X(2).
           05  REC-LOCAL-CODE PIC X(3).
           05  REC-SSN PIC X(9).
           05  REC-CASE-ID PIC X(15).
           05  REC-LAST-NAME PIC X(20).
           05  REC-FIRST-NAME PIC X(10).
           05  REC-ARREARAGE PIC 9(8).
           05  REC-CASE-TYPE PIC X(1).
           05  REC-NOTICE-DATE PIC X(8).
           05  REC-NOTICE-HOLD PIC X(1).
           05  REC-PASSPORT-ACTION PIC X(1).
           05  REC-EXCLUSIONS.
               10  REC-EXCLUSION-ADM PIC X(3).
               10  REC-EXCLUSION-RET PIC X(3).
               10  REC-EXCLUSION-VEN PIC X(3).
               10  REC-EXCLUSION-SAL PIC X(3).
               10  REC-EXCLUSION-TAX PIC X(3).
               10  REC-EXCLUSION-PAS PIC X(3).
               10  REC-EXCLUSION-FIN PIC X(3).
               10  REC-EXCLUSION-DCK PIC X(3).
           05  FILLER PIC X(140).
