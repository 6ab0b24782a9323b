module A exposing (a)
import C


a =
    1
