module C exposing (..)
import B
import Main
