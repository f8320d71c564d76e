import b
import a