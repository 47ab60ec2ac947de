-module(shapes).
-export([main/1]).

%% Shapes of `bench` as processes of Erlang, to compare with; each prints how many milliseconds it took:
%%     erl -noshell -run shapes main ring 999 1000000
%%     erl -noshell -run shapes main tokens 200 5000
%%     erl -noshell -run shapes main busy 4 250000
%%     erl -noshell -run shapes main crowd 100 10000
%% With `+S 4` there are four schedulers.
main([Shape, First, Second]) ->
    {N, H} = {list_to_integer(First), list_to_integer(Second)},
    Start = erlang:monotonic_time(microsecond),
    case Shape of
        "ring" -> ring(N, 1, H);
        "tokens" -> ring(999, N, H);
        "busy" -> busy(N, H);
        "crowd" -> crowd(N, H)
    end,
    io:format("~s ~w ~w: ~w ms~n", [Shape, N, H, (erlang:monotonic_time(microsecond) - Start) div 1000]),
    halt(0).

%% A ring of N processes hands T tokens on, each H times.
ring(N, T, H) ->
    Me = self(),
    First = spawn(fun() -> alone(Me) end),
    Last = lists:foldl(fun(_, Before) ->
        Pid = spawn(fun() -> alone(Me) end),
        Before ! {next, Pid},
        Pid
    end, First, lists:seq(2, N)),
    Last ! {next, First},
    [First ! {token, H} || _ <- lists:seq(1, T)],
    await(T).

alone(Boss) -> receive {next, Next} -> joined(Next, Boss) end.

joined(Next, Boss) ->
    receive
        {token, 0} -> Boss ! done, joined(Next, Boss);
        {token, Left} -> Next ! {token, Left - 1}, joined(Next, Boss)
    end.

%% N processes look H times each for a message that doesn't come.
busy(N, H) ->
    Me = self(),
    [spawn(fun() -> working(H, Me) end) || _ <- lists:seq(1, N)],
    await(N).

working(0, Boss) -> Boss ! done;
working(Left, Boss) ->
    receive _ -> working(Left, Boss) after 0 -> working(Left - 1, Boss) end.

%% N processes send H messages each to one, which takes them.
crowd(N, H) ->
    Me = self(),
    Sink = spawn(fun() -> sink(N * H, Me) end),
    [spawn(fun() -> send(H, Sink) end) || _ <- lists:seq(1, N)],
    await(1).

send(0, _) -> ok;
send(Left, Sink) -> Sink ! {drop, Left}, send(Left - 1, Sink).

sink(0, Boss) -> Boss ! done;
sink(Left, Boss) -> receive {drop, _} -> sink(Left - 1, Boss) end.

await(0) -> ok;
await(Left) -> receive done -> await(Left - 1) end.
