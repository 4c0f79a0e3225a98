"""`python3 -m colmjurr`: the command line."""
from .cli import main

if __name__ == "__main__":
    main()
