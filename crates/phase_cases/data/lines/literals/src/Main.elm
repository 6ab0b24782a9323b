module Main exposing (..)


great =
    9007199254740991


minus =
    -5


hexadecimal =
    0xFF


text =
    "a\"b\\c\né"


letter =
    'x'


past =
    '😀'
