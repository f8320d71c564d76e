import a
import b