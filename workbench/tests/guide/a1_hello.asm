STRING 'H' 'e' 'l' 'l' 'o' 0    ; string with its terminating zero
