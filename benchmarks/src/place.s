# PLACE bytes at the beginning of a block of 64: the code that is linked behind them lies so much further in its own blocks.
    .text
    .balign 64
    .skip PLACE
    .section .note.GNU-stack, "", @progbits
