module A exposing (..)
import B
