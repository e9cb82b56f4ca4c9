"""A refusal: (number, place, value), the value 0 where the table of refusals states none."""


class Refusal(Exception):
    def __init__(self, number, place, value=0):
        super().__init__(number, place, value)
        self.number = number
        self.place = place
        self.value = value

    def __str__(self):
        return f"refused {self.number} at {self.place} value {self.value}"
