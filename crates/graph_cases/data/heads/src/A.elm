module A exposing (..)
import Main
import exposing (..)
