import Y
import B
