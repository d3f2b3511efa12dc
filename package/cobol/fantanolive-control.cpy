      *> The control record of a batch (Chart A-2, 245 bytes).
      *> Written from layouts.json; not to be edited. To be copied
      *> below an item of level 01 to 04. Other names in front come by
      *> COPY "fantanolive-control.cpy"
      *>     REPLACING LEADING ==CTL-== BY ==OTHER-==.
      *> Digits (PIC 9) are to be read in the program's own characters:
      *> turn a record from EBCDIC first.
           05  CTL-STATE PIC X(2).
           05  CTL-MARK PIC X(3).
           05  CTL-TANF-RECORDS PIC 9(9).
           05  CTL-NON-TANF-RECORDS PIC 9(9).
           05  CTL-TANF-AMOUNT PIC 9(11).
           05  CTL-NON-TANF-AMOUNT PIC 9(11).
           05  FILLER PIC X(200).
