"""What a program says, message by message. A message is a line; but a file's name in it may hold line feeds itself."""


class Messages:
    def __init__(self, heads, judge):
        """`heads` are beginnings of messages that may hold line feeds: such a message ends at the first one behind its head."""
        self.heads, self.judge, self.rest = [head for head in heads if b'\n' in head], judge, b''

    def hear(self, piece):
        """b'' is the end, where a last line may lack its line feed."""
        self.rest += piece
        if not self.heads:
            *whole, self.rest = self.rest.split(b'\n')
            for message in whole:
                self.judge(message)
        else:
            while (size := self.first(not piece)) is not None:
                self.judge(self.rest[:size])
                self.rest = self.rest[size + 1:]
        if not piece and self.rest:
            self.judge(self.rest)
            self.rest = b''

    def first(self, ended):
        """The length of the first message, if all of it is there."""
        behind = 0
        for head in self.heads:
            if self.rest.startswith(head):
                behind = len(head)
                break
            if not ended and head.startswith(self.rest):
                return None
        size = self.rest.find(b'\n', behind)
        return None if size < 0 else size
