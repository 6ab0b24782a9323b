module NamesMany exposing (..)

f a b c d e g h i j k l m n o p q r s t u v w x y z aa bb cc =
    ( ( a, b ), cc )
