import kaltewi

FROM_SERVER = (
    '{"k":"data","path":"/chat","tag":1,"value":{"m1":"hi"}}',
    '{"k":"data","path":"/chat/m2","tag":1,"value":5}',
    '{"k":"ok","id":1}',
)

with kaltewi.Client() as client:
    ann = client.seat()
    client.connected()
    ann.listen("/chat")
    ann.set("/chat/m2", 10 / 2)
    for text in client.outgoing():
        print("to the server:", text)
    for text in FROM_SERVER:
        client.receive(text)
    for item in ann:
        print(item)
