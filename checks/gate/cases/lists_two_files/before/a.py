import b
import a