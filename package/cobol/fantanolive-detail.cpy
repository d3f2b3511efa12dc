      *> A detail of a batch (Chart A-1, 245 bytes).
      *> Written from layouts.json; not to be edited. To be copied
      *> below an item of level 01 to 04. Other names in front come by
      *> COPY "fantanolive-detail.cpy"
      *>     REPLACING LEADING ==DTL-== BY ==OTHER-==.
      *> Digits (PIC 9) are to be read in the program's own characters:
      *> turn a record from EBCDIC first.
           05  DTL-STATE PIC X(2).
           05  DTL-LOCAL-CODE PIC X(3).
           05  DTL-SSN PIC X(9).
           05  DTL-CASE-ID PIC X(15).
           05  DTL-LAST-NAME PIC X(20).
           05  DTL-FIRST-NAME PIC X(15).
           05  DTL-ARREARAGE PIC 9(8).
           05  DTL-TRANSACTION-TYPE PIC X(1).
           05  DTL-CASE-TYPE PIC X(1).
           05  DTL-TRANSFER-STATE PIC X(2).
           05  DTL-TRANSFER-LOCAL-CODE PIC X(3).
           05  DTL-PROCESS-YEAR PIC 9(4).
           05  DTL-ADDRESS-LINE-1 PIC X(30).
           05  DTL-ADDRESS-LINE-2 PIC X(30).
           05  DTL-CITY PIC X(25).
           05  DTL-ADDRESS-STATE PIC X(2).
           05  DTL-ZIP PIC X(9).
           05  DTL-DATE-ISSUED PIC X(8).
           05  DTL-EXCLUSIONS PIC X(40).
           05  FILLER PIC X(17).
           05  DTL-REQUEST-CODE PIC X(1).
