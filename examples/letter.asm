; Prints the letter A on the serial line and stops. examples/letter.hex is this program.
        ldi  r24, 0x08          ; TXEN: the transmitter is enabled
        sts  0x00C1, r24        ; UCSR0B
        ldi  r24, 0x41          ; 'A'
        sts  0x00C6, r24        ; UDR0
        break
