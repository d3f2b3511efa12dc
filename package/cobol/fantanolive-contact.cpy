      *> A contact record (Chart A-3, 220 bytes).
      *> Written from layouts.json; not to be edited. To be copied
      *> below an item of level 01 to 04. Other names in front come by
      *> COPY "fantanolive-contact.cpy"
      *>     REPLACING LEADING ==CON-== BY ==OTHER-==.
      *> Digits (PIC 9) are to be read in the program's own characters:
      *> turn a record from EBCDIC first.
           05  CON-KEY.
               10  CON-STATE PIC X(2).
               10  CON-LOCAL-CODE PIC X(3).
           05  CON-TELEPHONE-1 PIC X(14).
           05  CON-EXTENSION-1 PIC X(4).
           05  CON-TELEPHONE-2 PIC X(14).
           05  CON-EXTENSION-2 PIC X(4).
           05  CON-AGENCY-NAME PIC X(35).
           05  CON-ADDRESS-LINE-1 PIC X(35).
           05  CON-ADDRESS-LINE-2 PIC X(35).
           05  CON-ADDRESS-LINE-3 PIC X(35).
           05  CON-ADDRESS-LINE-4 PIC X(35).
           05  FILLER PIC X(4).
