"""Messages of HTTP that ask for the same as lines of a script, and their answers."""

from support.messages import answer, answer_to, compact, message


def message_of(line):
    """The message for a command with its key, or for an ask for a field."""
    first, rest = line.split(" ", 1)
    if first == "?":
        _, branch, article = rest.split()
        return f"GET /v1/fields/{branch}/{article} HTTP/1.1\r\n\r\n".encode()
    return message("POST /v1/commands", compact({"key": first, "command": rest}))


def answer_of(line):
    """The answer of HTTP where a script is answered by this line."""
    status, body = answer_to(line)
    return answer(status, compact(body))
