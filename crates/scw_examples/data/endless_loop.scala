object Main {
  def main(args: Array[String]): Unit = {
    println("counting");
    var n: Long = 0L;
    while (true) n = n + 1L
  }
}
