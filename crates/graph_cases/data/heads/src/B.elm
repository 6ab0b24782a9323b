module B exposing (..)
import G

b = 	1
