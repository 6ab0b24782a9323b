module Ambiguous exposing (..)
import Main
