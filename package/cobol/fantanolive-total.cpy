      *> The TOTAL record of a collection file (Chart 0-5, 240 bytes).
      *> Written from layouts.json; not to be edited. To be copied
      *> below an item of level 01 to 04. Other names in front come by
      *> COPY "fantanolive-total.cpy"
      *>     REPLACING LEADING ==TOT-== BY ==OTHER-==.
      *> Digits (PIC 9) are to be read in the program's own characters:
      *> turn a record from EBCDIC first.
           05  TOT-STATE PIC X(2).
           05  FILLER PIC X(3).
           05  TOT-MARK PIC X(9).
           05  FILLER PIC X(20).
           05  TOT-ADJUSTMENTS PIC 9(15).
           05  TOT-COLLECTIONS PIC 9(15).
           05  TOT-CERTIFIED-ARREARAGE PIC 9(9)V99.
           05  TOT-COLLECTION PIC 9(9)V99.
           05  TOT-ADJUSTMENT PIC 9(9)V99.
           05  TOT-NET PIC 9(9)V99.
           05  FILLER PIC X(132).
