// The other end of trials/fix_quickfix.py: QuickFIX builds orders, or validates messages by its data dictionary of FIX 4.4.
//   fix_quickfix build COUNT            writes COUNT messages, a line each with | for SOH
//   fix_quickfix validate FIX44.xml     reads such lines; a line for each that QuickFIX does not take, and then how many of each MsgType it took
#include <cstdio>
#include <cstdlib>
#include <cstring>
#include <algorithm>
#include <iostream>
#include <map>
#include <string>
#include <vector>

#include <quickfix/DataDictionary.h>
#include <quickfix/Message.h>
#include <quickfix/fix44/NewOrderSingle.h>
#include <quickfix/fix44/OrderCancelReplaceRequest.h>
#include <quickfix/fix44/OrderCancelRequest.h>

static const char *const BANKS[] = {"B01", "B02", "B03"};

static void head(FIX::Message &message, int bank, int sequence) {
    message.getHeader().setField(FIX::SenderCompID(BANKS[bank]));
    message.getHeader().setField(FIX::TargetCompID("VENUE"));
    message.getHeader().setField(FIX::MsgSeqNum(sequence));
    message.getHeader().setField(FIX::SendingTime());
}

static void print(const FIX::Message &message) {
    std::string text = message.toString();
    std::replace(text.begin(), text.end(), '\001', '|');
    std::cout << text << "\n";
}

// Of eight messages seven are orders; the last asks to cancel or to lower its bank's order before it.
static void build(int count) {
    int sequence[3] = {0, 0, 0};
    std::string last[3];
    for (int number = 0; number < count; number++) {
        int bank = number % 3;
        FIX::ClOrdID identity("q" + std::to_string(number));
        FIX::Side side(bank == 0 ? FIX::Side_SELL : FIX::Side_BUY);
        FIX::Symbol symbol("AAA/ZZZ");
        if (number % 8 == 7 && !last[bank].empty() && number % 16 == 15) {
            FIX44::OrderCancelRequest message(FIX::OrigClOrdID(last[bank]), identity, side, FIX::TransactTime());
            message.set(symbol);
            message.set(FIX::OrderQty(9000));
            head(message, bank, ++sequence[bank]);
            print(message);
        } else if (number % 8 == 7 && !last[bank].empty()) {
            FIX44::OrderCancelReplaceRequest message(FIX::OrigClOrdID(last[bank]), identity, side, FIX::TransactTime(), FIX::OrdType(FIX::OrdType_LIMIT));
            message.set(symbol);
            message.set(FIX::OrderQty(2000));
            message.set(FIX::Price(100.5));
            head(message, bank, ++sequence[bank]);
            print(message);
        } else {
            FIX44::NewOrderSingle message(identity, side, FIX::TransactTime(), FIX::OrdType(FIX::OrdType_LIMIT));
            message.set(symbol);
            message.set(FIX::OrderQty(9000));
            message.set(FIX::Price(100.5));
            char lives[] = {FIX::TimeInForce_DAY, FIX::TimeInForce_DAY, FIX::TimeInForce_IMMEDIATE_OR_CANCEL, FIX::TimeInForce_FILL_OR_KILL};
            char life = lives[number / 3 % 4];
            message.set(FIX::TimeInForce(life));
            head(message, bank, ++sequence[bank]);
            if (life == FIX::TimeInForce_DAY) last[bank] = identity;
            print(message);
        }
    }
}

static int validate(const char *path) {
    FIX::DataDictionary dictionary(path);
    std::map<std::string, int> taken;
    int refused = 0;
    for (std::string line; std::getline(std::cin, line);) {
        std::replace(line.begin(), line.end(), '|', '\001');
        try {
            FIX::Message message(line, dictionary, true);
            dictionary.validate(message);
            taken[message.getHeader().getField(35)]++;
        } catch (const std::exception &fault) {
            std::replace(line.begin(), line.end(), '\001', '|');
            std::cout << "refused: " << fault.what() << ": " << line << "\n";
            refused++;
        }
    }
    for (const auto &each : taken) std::cout << each.first << " " << each.second << "\n";
    return refused ? 1 : 0;
}

int main(int count, char **words) {
    if (count == 3 && !std::strcmp(words[1], "build")) return build(std::atoi(words[2])), 0;
    if (count == 3 && !std::strcmp(words[1], "validate")) return validate(words[2]);
    return 2;
}
