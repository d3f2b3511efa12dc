      *> The RCT record of a reconciliation file (Chart 0-7, 245 bytes).
      *> Written from layouts.json; not to be edited. To be copied
      *> below an item of level 01 to 04. Other names in front come by
      *> COPY "fantanolive-rct.cpy"
      *>     REPLACING LEADING ==RCT-== BY ==OTHER-==.
      *> Digits (PIC 9) are to be read in the program's own characters:
      *> turn a record from EBCDIC first.
           05  RCT-MARK PIC X(3).
           05  RCT-STATE PIC X(2).
           05  RCT-TANF PIC 9(9).
           05  RCT-NON-TANF PIC 9(9).
           05  RCT-TOTAL PIC 9(9).
           05  RCT-DATE PIC X(8).
           05  FILLER PIC X(205).
