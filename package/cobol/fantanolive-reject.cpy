      *> A reject record (Chart 0-1, 245 bytes).
      *> Written from layouts.json; not to be edited. To be copied
      *> below an item of level 01 to 04. Other names in front come by
      *> COPY "fantanolive-reject.cpy"
      *>     REPLACING LEADING ==REJ-== BY ==OTHER-==.
      *> Digits (PIC 9) are to be read in the program's own characters:
      *> turn a record from EBCDIC first.
           05  REJ-AS-SENT.
               10  REJ-STATE PIC X(2).
               10  REJ-LOCAL-CODE PIC X(3).
               10  REJ-SSN PIC X(9).
               10  REJ-CASE-ID PIC X(15).
               10  REJ-LAST-NAME PIC X(20).
               10  REJ-FIRST-NAME PIC X(15).
               10  REJ-ARREARAGE PIC 9(8).
               10  REJ-TRANSACTION-TYPE PIC X(1).
               10  REJ-CASE-TYPE PIC X(1).
               10  REJ-TRANSFER-STATE PIC X(2).
               10  REJ-TRANSFER-LOCAL-CODE PIC X(3).
               10  REJ-PROCESS-YEAR PIC 9(4).
               10  REJ-ADDRESS-LINE-1 PIC X(30).
               10  REJ-ADDRESS-LINE-2 PIC X(30).
               10  REJ-CITY PIC X(25).
               10  REJ-ADDRESS-STATE PIC X(2).
               10  REJ-ZIP PIC X(9).
               10  REJ-DATE-ISSUED PIC X(8).
               10  REJ-EXCLUSIONS PIC X(40).
           05  REJ-ERROR-CODES PIC X(12).
           05  REJ-STORED-NAME PIC X(4).
           05  FILLER PIC X(1).
           05  REJ-REQUEST-CODE PIC X(1).
