import A
import B
import C
import D
import E
import F

main = )
