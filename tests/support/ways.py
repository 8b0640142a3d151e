"""Bodies with which a shop would try to have something done that it may not do, in whatever version of HTTP they are sent."""

import json

DELIVER = "deliver N1 A-1 7"
COMMIT = "commit 999"
PAIR = {"key": "WAY", "command": DELIVER}

# bodies that say `deliver` to some reader of JSON, or of texts that are nearly JSON
BODIES = {
    "what a shop may not do": json.dumps(PAIR),
    "members the other way round": '{"command":"deliver N1 A-1 7","key":"WAY"}',
    "two commands": '{"key":"WAY","command":"commit 999","command":"deliver N1 A-1 7"}',
    "two commands, the other first": '{"key":"WAY","command":"deliver N1 A-1 7","command":"commit 999"}',
    "two commands around the key": '{"command":"commit 999","key":"WAY","command":"deliver N1 A-1 7"}',
    "two keys": '{"key":"WAY","key":"command","command":"deliver N1 A-1 7"}',
    "two commands in lines": '{"key":"WAY","command":"commit 999",\n"command":"deliver N1 A-1 7"}',
    "two commands with spaces": '{"key":"WAY", "command" : "commit 999" , "command" : "deliver N1 A-1 7"}',
    "an escaped name": '{"key":"WAY","comm\\u0061nd":"deliver N1 A-1 7"}',
    "an escaped name behind another": '{"key":"WAY","command":"commit 999","comm\\u0061nd":"deliver N1 A-1 7"}',
    "an escaped verb": '{"key":"WAY","command":"\\u0064eliver N1 A-1 7"}',
    "an escaped space": '{"key":"WAY","command":"commit\\u0020999 deliver N1 A-1 7"}',
    "an escaped slash": '{"key":"WAY","command":"deliver N1 A-1 7\\/"}',
    "a name of letters that look alike": '{"key":"WAY","command":"commit 999","сommand":"deliver N1 A-1 7"}',
    "a name in capitals": '{"key":"WAY","command":"commit 999","COMMAND":"deliver N1 A-1 7"}',
    "a member more": '{"key":"WAY","command":"deliver N1 A-1 7","for":"ho"}',
    "an object in it": '{"key":"WAY","command":"commit 999","more":{"command":"deliver N1 A-1 7"}}',
    "a list": '[{"key":"WAY","command":"deliver N1 A-1 7"}]',
    "a list of values": '["WAY","deliver N1 A-1 7"]',
    "two objects": '{"key":"WAY","command":"commit 999"}{"key":"WAY","command":"deliver N1 A-1 7"}',
    "two objects in lines": '{"key":"W","command":"commit 999"}\n{"key":"WAY","command":"deliver N1 A-1 7"}',
    "a comment": '{"key":"WAY","command":/*"commit 999",*/"deliver N1 A-1 7"}',
    "single quotes": "{'key':'WAY','command':'deliver N1 A-1 7'}",
    "a mark of the byte order": "\ufeff" + json.dumps(PAIR),
    "a newline in the command": '{"key":"WAY","command":"commit 999\ndeliver N1 A-1 7"}',
    "a tab behind the verb": '{"key":"WAY","command":"deliver\tN1 A-1 7"}',
    "a space before the verb": '{"key":"WAY","command":" deliver N1 A-1 7"}',
    "a zero byte behind it": json.dumps({"key": "WAY", "command": COMMIT}) + "\0" + json.dumps(PAIR),
    "a zero byte before the verb": '{"key":"WAY","command":"\0deliver N1 A-1 7"}',
    "a zero byte in the name": '{"key":"WAY","command\0":"commit 999","command":"deliver N1 A-1 7"}',
    "a form feed": '{"key":"WAY",\f"command":"deliver N1 A-1 7"}',
    "a quote in the key": '{"key":"WAY\\",\\"command\\":\\"commit 999","command":"deliver N1 A-1 7"}',
    "a form": "key=WAY&command=deliver+N1+A-1+7",
    "nothing": "",
}
