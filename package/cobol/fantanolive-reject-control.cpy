      *> The control record of a reject file (Chart 0-2, 245 bytes).
      *> Written from layouts.json; not to be edited. To be copied
      *> below an item of level 01 to 04. Other names in front come by
      *> COPY "fantanolive-reject-control.cpy"
      *>     REPLACING LEADING ==RJC-== BY ==OTHER-==.
      *> Digits (PIC 9) are to be read in the program's own characters:
      *> turn a record from EBCDIC first.
           05  RJC-STATE PIC X(2).
           05  RJC-MARK PIC X(3).
           05  RJC-TANF-ACCEPTED PIC 9(9).
           05  RJC-TANF-REJECTED PIC 9(9).
           05  RJC-NON-TANF-ACCEPTED PIC 9(9).
           05  RJC-NON-TANF-REJECTED PIC 9(9).
           05  RJC-TANF-WARNED PIC 9(9).
           05  RJC-NON-TANF-WARNED PIC 9(9).
           05  FILLER PIC X(186).
