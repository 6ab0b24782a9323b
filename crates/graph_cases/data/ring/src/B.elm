module B exposing (..)
import A
