module D.E exposing (..)
import A
import C
