module List exposing (..)
import Main
