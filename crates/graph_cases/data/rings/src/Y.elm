module Y exposing (..)
import Z
