// Runs day orders through the order matcher of QuickFIX's examples: reads FIX 4.2 messages, one a line, from standard input, has each
// parsed, matched and answered by execution reports, as the example's application does, and writes these to standard output. No session,
// no socket and no log stands between, so that it is the least that a user of that matcher pays. bench/order_matcher.py builds and times it.
#include <iostream>
#include <queue>
#include <string>

#include "OrderMatcher.h"
#include "quickfix/Message.h"
#include "quickfix/fix42/ExecutionReport.h"
#include "quickfix/fix42/NewOrderSingle.h"

namespace {

// What the example's application keeps: the books, and the numbers that go out.
class Desk {
public:
  void take(const std::string& text) {
    FIX::Message message(text, true);
    FIX::SenderCompID owner;
    FIX::TargetCompID target;
    FIX::ClOrdID id;
    FIX::Symbol symbol;
    FIX::Side side;
    FIX::Price price;
    FIX::OrderQty quantity;
    message.getHeader().getField(owner);
    message.getHeader().getField(target);
    message.getField(id);
    message.getField(symbol);
    message.getField(side);
    message.getField(price);
    message.getField(quantity);
    Order order(id, symbol, owner, target, side == FIX::Side_BUY ? Order::buy : Order::sell, Order::limit, price,
                static_cast<long>(quantity));
    matcher.insert(order);
    report(order, FIX::OrdStatus_NEW);
    std::queue<Order> updates;
    matcher.match(order.getSymbol(), updates);
    for (; !updates.empty(); updates.pop()) {
      const Order& filled = updates.front();
      report(filled, filled.isFilled() ? FIX::OrdStatus_FILLED : FIX::OrdStatus_PARTIALLY_FILLED);
    }
  }

  std::string out;

private:
  void report(const Order& order, char status) {
    FIX42::ExecutionReport report(FIX::OrderID(order.getClientID()), FIX::ExecID(std::to_string(++reports)),
                                  FIX::ExecTransType(FIX::ExecTransType_NEW), FIX::ExecType(status), FIX::OrdStatus(status),
                                  FIX::Symbol(order.getSymbol()), FIX::Side(order.getSide() == Order::buy ? FIX::Side_BUY : FIX::Side_SELL),
                                  FIX::LeavesQty(order.getOpenQuantity()), FIX::CumQty(order.getExecutedQuantity()),
                                  FIX::AvgPx(order.getAvgExecutedPrice()));
    report.set(FIX::ClOrdID(order.getClientID()));
    report.set(FIX::OrderQty(order.getQuantity()));
    if (status != FIX::OrdStatus_NEW) {
      report.set(FIX::LastShares(order.getLastExecutedQuantity()));
      report.set(FIX::LastPx(order.getLastExecutedPrice()));
    }
    report.getHeader().setField(FIX::SenderCompID(order.getTarget()));
    report.getHeader().setField(FIX::TargetCompID(order.getOwner()));
    report.getHeader().setField(FIX::MsgSeqNum(static_cast<int>(reports)));
    out += report.toString();
    out += '\n';
  }

  OrderMatcher matcher;
  long reports = 0;
};

}  // namespace

int main() {
  std::ios::sync_with_stdio(false);
  Desk desk;
  std::string line;
  while (std::getline(std::cin, line)) desk.take(line);
  std::cout << desk.out;
  return 0;
}
