/* Moves the code that is linked after it by PAD bytes. */
    .section .note.GNU-stack, "", @progbits
    .text
    .fill PAD, 1, 0x90
