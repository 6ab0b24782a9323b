module Z exposing (..)
import Y
