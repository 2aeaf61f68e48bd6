"""The program that is asked: the queries it takes, and the talk with it."""
